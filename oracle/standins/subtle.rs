// Stands in for the crate subtle: what strobe-rs names of it, and no more. It is not constant time.
#![no_std]

use core::ops::BitAndAssign;

pub struct Choice(u8);

impl From<u8> for Choice {
    #[inline]
    fn from(bit: u8) -> Choice {
        Choice(bit)
    }
}

impl From<Choice> for bool {
    #[inline]
    fn from(choice: Choice) -> bool {
        choice.0 != 0
    }
}

impl BitAndAssign for Choice {
    #[inline]
    fn bitand_assign(&mut self, other: Choice) {
        self.0 &= other.0;
    }
}

pub trait ConstantTimeEq {
    fn ct_eq(&self, other: &Self) -> Choice;
}

impl ConstantTimeEq for u8 {
    #[inline]
    fn ct_eq(&self, other: &u8) -> Choice {
        Choice((self == other) as u8)
    }
}
