// Stands in for the crate bitflags 2: what strobe-rs and the oracle's accessor name of it, and no more.
#![no_std]

// Two structs, one in the other, since strobe-rs reaches for the number as `self.0.0`.
#[macro_export]
macro_rules! bitflags {
    (
        $(#[$attribute:meta])*
        $visible:vis struct $Flags:ident: $Bits:ty {
            $($(#[$doc:meta])* const $FLAG:ident = $value:expr;)*
        }
    ) => {
        $(#[$attribute])*
        $visible struct $Flags(Internal);

        $(#[$attribute])*
        $visible struct Internal($Bits);

        #[allow(dead_code)]
        impl $Flags {
            $($(#[$doc])* pub const $FLAG: $Flags = $Flags(Internal($value));)*

            const ALL: $Bits = 0 $(| $value)*;

            #[inline]
            pub const fn from_bits_retain(bits: $Bits) -> $Flags {
                $Flags(Internal(bits))
            }

            #[inline]
            pub const fn bits(&self) -> $Bits {
                self.0.0
            }

            #[inline]
            pub const fn contains(&self, other: $Flags) -> bool {
                self.0.0 & other.0.0 == other.0.0
            }

            #[inline]
            pub fn set(&mut self, other: $Flags, value: bool) {
                if value {
                    self.0.0 |= other.0.0;
                } else {
                    self.0.0 &= !other.0.0;
                }
            }
        }

        impl core::ops::BitOr for $Flags {
            type Output = $Flags;

            #[inline]
            fn bitor(self, other: $Flags) -> $Flags {
                $Flags(Internal(self.0.0 | other.0.0))
            }
        }

        impl core::ops::BitAnd for $Flags {
            type Output = $Flags;

            #[inline]
            fn bitand(self, other: $Flags) -> $Flags {
                $Flags(Internal(self.0.0 & other.0.0))
            }
        }

        impl core::ops::Not for $Flags {
            type Output = $Flags;

            #[inline]
            fn not(self) -> $Flags {
                $Flags(Internal(!self.0.0 & Self::ALL))
            }
        }
    };
}
