// Stands in for the crate keccak 0.2: Keccak-f[1600] as FIPS 202 writes it, on lanes. Lane (x, y) is a[x + 5 * y].
#![no_std]

pub struct Keccak;

impl Keccak {
    #[allow(clippy::new_without_default)]
    pub fn new() -> Keccak {
        Keccak
    }

    pub fn with_f1600(&self, work: impl FnOnce(fn(&mut [u64; 25]))) {
        work(f1600)
    }
}

// Algorithm 7: the 24 rounds.
fn f1600(a: &mut [u64; 25]) {
    for constant in CONSTANTS {
        theta(a);
        rho_and_pi(a);
        chi(a);
        // Algorithm 6, iota
        a[0] ^= constant;
    }
}

// Algorithm 1.
fn theta(a: &mut [u64; 25]) {
    let mut c = [0; 5];
    for i in 0..25 {
        c[i % 5] ^= a[i];
    }
    for i in 0..25 {
        a[i] ^= c[(i + 4) % 5] ^ c[(i + 1) % 5].rotate_left(1);
    }
}

// Algorithms 2 and 3, along the walk of algorithm 2, which visits every lane but (0, 0).
fn rho_and_pi(a: &mut [u64; 25]) {
    let old = *a;
    let (mut x, mut y) = (1, 0);
    for t in 0..24 {
        let (to_x, to_y) = (y, (2 * x + 3 * y) % 5);
        a[to_x + 5 * to_y] = old[x + 5 * y].rotate_left((t + 1) * (t + 2) / 2 % 64);
        (x, y) = (to_x, to_y);
    }
}

// Algorithm 4.
fn chi(a: &mut [u64; 25]) {
    for row in a.chunks_exact_mut(5) {
        let old = [row[0], row[1], row[2], row[3], row[4]];
        for x in 0..5 {
            row[x] = old[x] ^ (!old[(x + 1) % 5] & old[(x + 2) % 5]);
        }
    }
}

const CONSTANTS: [u64; 24] = constants();

// Algorithm 6: bit 2^j - 1 of round ir's constant is rc(j + 7 ir). Algorithm 5's register is advanced once for each.
const fn constants() -> [u64; 24] {
    let mut constants = [0; 24];
    let mut register: u16 = 1;
    let mut t = 0;
    while t < 24 * 7 {
        if register & 1 == 1 {
            constants[t / 7] |= 1 << ((1 << (t % 7)) - 1);
        }
        // Bits 0, 4, 5 and 6 of the shifted register take its bit 8.
        register <<= 1;
        if register & 0x100 != 0 {
            register ^= 0x171;
        }
        t += 1;
    }
    constants
}
