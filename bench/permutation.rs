// permutation SIDE TIMES: permutes one start state TIMES times with the code of SIDE, and writes the 200 bytes.
#![no_std]
#![no_main]

mod c_library;

// target/bench/libbench.a
extern "C" {
    fn bench_permute(state: &mut [u8; 200]);
}

#[repr(align(8))]
struct State([u8; 200]);

#[inline(never)]
fn ours(state: &mut State, times: usize) {
    for _ in 0..times {
        unsafe { bench_permute(&mut state.0) }
    }
}

#[cfg(with_crate)]
mod with_crate {
    use super::State;

    fn to_lanes(state: &State, lanes: &mut [u64; 25]) {
        for (lane, bytes) in lanes.iter_mut().zip(state.0.chunks_exact(8)) {
            *lane = u64::from_le_bytes(bytes.try_into().unwrap());
        }
    }

    fn to_bytes(lanes: &[u64; 25], state: &mut State) {
        for (lane, bytes) in lanes.iter().zip(state.0.chunks_exact_mut(8)) {
            bytes.copy_from_slice(&lane.to_le_bytes());
        }
    }

    // The conversion and back stand outside the loop: they are not counted.
    pub fn on_lanes(state: &mut State, times: usize) {
        let mut lanes = [0u64; 25];
        to_lanes(state, &mut lanes);
        permute_lanes(&mut lanes, times);
        to_bytes(&lanes, state);
    }

    #[inline(never)]
    fn permute_lanes(lanes: &mut [u64; 25], times: usize) {
        for _ in 0..times {
            keccak::f1600(lanes);
        }
    }

    #[inline(never)]
    pub fn on_bytes(state: &mut State, times: usize) {
        for _ in 0..times {
            keccakf_u8(state);
        }
    }

    // As strobe-rs does it: a copy in lanes, the permutation, and the bytes back.
    fn keccakf_u8(state: &mut State) {
        let mut lanes = [0u64; 25];
        to_lanes(state, &mut lanes);
        keccak::f1600(&mut lanes);
        to_bytes(&lanes, state);
    }
}

#[no_mangle]
pub extern "C" fn main(argc: i32, argv: *const *const i8) -> i32 {
    let words = c_library::Words::new(argc, argv);
    if words.count() != 3 {
        return 2;
    }
    let times = words.number(2);
    let mut state = State([0; 200]);
    for (i, byte) in state.0.iter_mut().enumerate() {
        *byte = (7 * i + 3) as u8;
    }
    match words.word(1) {
        b"ours" => ours(&mut state, times),
        #[cfg(with_crate)]
        b"crate_on_lanes" => with_crate::on_lanes(&mut state, times),
        #[cfg(with_crate)]
        b"crate_on_bytes" => with_crate::on_bytes(&mut state, times),
        _ => return 2,
    }
    !c_library::write_all(&state.0) as i32
}
