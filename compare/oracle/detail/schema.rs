//! Stand-in for schemas: a value read and written through the masks that the given files name, by the standard. A field costs
//! a mask and a shift, so that the benchmark holds nothing of a stand-in against the Rust.

use crate::ux::{u14, u4, u7};

/// The bits of a field, a mask a word.
pub struct Ump<const A: u32, const B: u32, const C: u32, const D: u32>;

impl<const A: u32, const B: u32, const C: u32, const D: u32> Ump<A, B, C, D> {
    /// Each field of the given files has its bits in one word.
    const WORD: usize = (A == 0) as usize + (A | B == 0) as usize + (A | B | C == 0) as usize;
    const MASK: u32 = A | B | C | D;
    const LOW: u32 = Self::MASK.trailing_zeros();

    /// The field's bits, the lowest at bit 0.
    fn get(buffer: &[u32]) -> u32 {
        (buffer[Self::WORD] & Self::MASK) >> Self::LOW
    }

    fn put(buffer: &mut [u32], bits: u32) {
        buffer[Self::WORD] = buffer[Self::WORD] & !Self::MASK | bits << Self::LOW;
    }
}

/// Values that a field of this schema holds.
pub trait UmpSchemaRepr<S> {
    fn write(buffer: &mut [u32], value: Self);
    fn read(buffer: &[u32]) -> Self;
}

/// A 14-bit number in two octets: the standard has its low seven bits in the first.
fn in_octets(value: u14) -> u32 {
    (u32::from(value) & 0x7F) << 8 | u32::from(value) >> 7
}

fn of_octets(bits: u32) -> u14 {
    u14::new((bits >> 8 | (bits & 0x7F) << 7) as u16)
}

macro_rules! repr {
    ($type:ty, $into:expr, $from:expr) => {
        impl<const A: u32, const B: u32, const C: u32, const D: u32> UmpSchemaRepr<Ump<A, B, C, D>> for $type {
            fn write(buffer: &mut [u32], value: Self) {
                Ump::<A, B, C, D>::put(buffer, $into(value));
            }
            fn read(buffer: &[u32]) -> Self {
                $from(Ump::<A, B, C, D>::get(buffer))
            }
        }
    };
}

repr!(bool, |v: bool| v as u32, |v| v != 0);
repr!(u8, |v: u8| v as u32, |v| v as u8);
repr!(u4, |v: u4| u32::from(v), |v| u4::new(v as u8));
repr!(u7, |v: u7| u32::from(v), |v| u7::new(v as u8));
repr!(u14, in_octets, of_octets);
