// Stands in for the crate zeroize: what strobe-rs names of it, and no more. Its derives are zeroize_derive.rs's.
#![no_std]

pub trait Zeroize {
    fn zeroize(&mut self);
}

pub trait ZeroizeOnDrop {}

impl Zeroize for u8 {
    #[inline]
    fn zeroize(&mut self) {
        *self = 0;
    }
}

impl<const N: usize> Zeroize for [u8; N] {
    #[inline]
    fn zeroize(&mut self) {
        *self = [0; N];
    }
}
