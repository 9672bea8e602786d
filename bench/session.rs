// session SIDE OPERATION LENGTH TIMES: a fresh session of SIDE does OPERATION TIMES times over a buffer of LENGTH bytes, then prf of 16 bytes.
// Writes the buffer and the 16 bytes.
#![no_std]
#![no_main]

mod c_library;

// target/bench/libbench.a. It gets a slice as a pointer and a length.
type Row = unsafe extern "C" fn(times: usize, buf: *mut u8, length: usize, out: *mut u8, out_length: usize);
extern "C" {
    fn bench_ad(times: usize, buf: *mut u8, length: usize, out: *mut u8, out_length: usize);
    fn bench_send_enc(times: usize, buf: *mut u8, length: usize, out: *mut u8, out_length: usize);
    fn bench_prf(times: usize, buf: *mut u8, length: usize, out: *mut u8, out_length: usize);
}

// Whether there is such an operation, as in `with_crate`.
#[inline(never)]
fn ours(operation: &[u8], times: usize, buf: &mut [u8], out: &mut [u8]) -> bool {
    let row: Row = match operation {
        b"ad" => bench_ad,
        b"send_enc" => bench_send_enc,
        b"prf" => bench_prf,
        _ => return false,
    };
    unsafe { row(times, buf.as_mut_ptr(), buf.len(), out.as_mut_ptr(), out.len()) }
    true
}

#[cfg(with_crate)]
#[inline(never)]
fn with_crate(operation: &[u8], times: usize, buf: &mut [u8], out: &mut [u8]) -> bool {
    let mut session = strobe_rs::Strobe::new(b"bench", strobe_rs::SecParam::B128);
    match operation {
        b"ad" => (0..times).for_each(|_| session.ad(buf, false)),
        b"send_enc" => (0..times).for_each(|_| session.send_enc(buf, false)),
        b"prf" => (0..times).for_each(|_| session.prf(buf, false)),
        _ => return false,
    }
    session.prf(out, false);
    true
}

const MOST: usize = 1 << 20;
static mut BUFFER: [u8; MOST] = [0; MOST];

#[no_mangle]
pub extern "C" fn main(argc: i32, argv: *const *const i8) -> i32 {
    let words = c_library::Words::new(argc, argv);
    if words.count() != 5 || words.number(3) > MOST {
        return 2;
    }
    // Nothing else names the buffer.
    let whole = unsafe { &mut *core::ptr::addr_of_mut!(BUFFER) };
    let buf = &mut whole[..words.number(3)];
    for (i, byte) in buf.iter_mut().enumerate() {
        *byte = (7 * i + 3) as u8;
    }
    let mut out = [0; 16];
    let done = match words.word(1) {
        b"ours" => ours(words.word(2), words.number(4), buf, &mut out),
        #[cfg(with_crate)]
        b"strobe_rs" => with_crate(words.word(2), words.number(4), buf, &mut out),
        _ => false,
    };
    if !done {
        return 2;
    }
    !(c_library::write_all(buf) && c_library::write_all(&out)) as i32
}
