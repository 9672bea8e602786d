// What strobe-rs names of the crate keccak 0.2, passed on to keccak 0.1, which is Debian's.
#![no_std]

pub struct Keccak;

impl Keccak {
    #[inline]
    pub fn new() -> Keccak {
        Keccak
    }

    #[inline]
    pub fn with_f1600(&self, work: impl FnOnce(fn(&mut [u64; 25]))) {
        work(keccak::f1600)
    }
}
