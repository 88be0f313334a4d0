//! Stand-in for the number types of `ux`: the widths that the given files name.

use std::convert::TryFrom;
use std::ops::{BitAnd, BitAndAssign, BitOrAssign, Not, Shl, Shr};

/// A number that its type does not hold.
#[derive(Clone, Copy, Debug, PartialEq, Eq)]
pub struct TooLarge;

macro_rules! number {
    ($name:ident, $held:ty, $bits:expr) => {
        #[allow(non_camel_case_types)]
        #[derive(Clone, Copy, Debug, Default, PartialEq, Eq, PartialOrd, Ord)]
        pub struct $name($held);

        impl $name {
            pub const MAX: $name = $name((1 << $bits) - 1);
            pub const MIN: $name = $name(0);
            /// Panics above the largest number, as `ux` does.
            pub const fn new(v: $held) -> $name {
                assert!(v <= (1 << $bits) - 1);
                $name(v)
            }
        }

        impl TryFrom<u32> for $name {
            type Error = TooLarge;
            fn try_from(v: u32) -> Result<$name, TooLarge> {
                if v < (1 << $bits) {
                    Ok($name(v as $held))
                } else {
                    Err(TooLarge)
                }
            }
        }

        impl From<$name> for u32 {
            fn from(v: $name) -> u32 {
                v.0 as u32
            }
        }

        impl BitAnd for $name {
            type Output = $name;
            fn bitand(self, other: $name) -> $name {
                $name(self.0 & other.0)
            }
        }

        impl BitAndAssign for $name {
            fn bitand_assign(&mut self, other: $name) {
                self.0 &= other.0
            }
        }

        impl BitOrAssign for $name {
            fn bitor_assign(&mut self, other: $name) {
                self.0 |= other.0
            }
        }

        impl Not for $name {
            type Output = $name;
            fn not(self) -> $name {
                $name(!self.0 & $name::MAX.0)
            }
        }

        impl Shl<usize> for $name {
            type Output = $name;
            fn shl(self, by: usize) -> $name {
                $name((self.0 << by) & $name::MAX.0)
            }
        }

        impl Shr<usize> for $name {
            type Output = $name;
            fn shr(self, by: usize) -> $name {
                $name(self.0 >> by)
            }
        }
    };
}

macro_rules! in_a_byte {
    ($name:ident, $bits:expr) => {
        number!($name, u8, $bits);

        impl TryFrom<u8> for $name {
            type Error = TooLarge;
            fn try_from(v: u8) -> Result<$name, TooLarge> {
                $name::try_from(v as u32)
            }
        }

        impl From<$name> for u8 {
            fn from(v: $name) -> u8 {
                v.0
            }
        }
    };
}

in_a_byte!(u2, 2);
in_a_byte!(u4, 4);
in_a_byte!(u7, 7);
number!(u14, u16, 14);
