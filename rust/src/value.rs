//! Values of fields, from and to the numbers of a record.

use crate::{Direction, Midi1Port, UiHint};

/// A field's value. It is read from the numbers that start at its place, and put there.
pub trait Value: Copy {
    /// What a setting takes it as.
    type Crossed;

    fn of(numbers: &[u32]) -> Self;
    fn crossed(self) -> Self::Crossed;
    fn put(self, numbers: &mut [u32]);
}

/// A value that is one number: how the number says it, and how it crosses.
macro_rules! one_number {
    ($($type:ty, $crossed:ty: $number:ident => $of:expr, $value:ident => $code:expr;)+) => {
        $(impl Value for $type {
            type Crossed = $crossed;

            #[inline]
            fn of(numbers: &[u32]) -> $type {
                let $number = numbers[0];
                $of
            }

            #[inline]
            fn crossed(self) -> $crossed {
                let $value = self;
                $code
            }

            #[inline]
            fn put(self, numbers: &mut [u32]) {
                numbers[0] = self.crossed().into();
            }
        })+
    };
}

/// A value that is several octets, a number each.
macro_rules! octets {
    ($($count:literal)+) => {
        $(impl Value for [u8; $count] {
            type Crossed = [u32; $count];

            #[inline]
            fn of(numbers: &[u32]) -> [u8; $count] {
                let mut octets = [0; $count];
                for (octet, number) in octets.iter_mut().zip(numbers) {
                    *octet = *number as u8;
                }
                octets
            }

            #[inline]
            fn crossed(self) -> [u32; $count] {
                self.map(u32::from)
            }

            #[inline]
            fn put(self, numbers: &mut [u32]) {
                for (number, octet) in numbers.iter_mut().zip(self) {
                    *number = octet.into();
                }
            }
        })+
    };
}

one_number! {
    bool, bool: number => number != 0, value => value;
    u8, u32: number => number as u8, value => value.into();
    u16, u32: number => number as u16, value => value.into();
    UiHint, u32: number => match number {
        0 => UiHint::Undeclared,
        1 => UiHint::Receiver,
        2 => UiHint::Sender,
        _ => UiHint::SenderReceiver,
    }, value => match value {
        UiHint::Undeclared => 0,
        UiHint::Receiver => 1,
        UiHint::Sender => 2,
        UiHint::SenderReceiver => 3,
    };
    Option<Midi1Port>, u32: number => match number {
        1 => Some(Midi1Port::DontRestrictBandwidth),
        2 => Some(Midi1Port::RestrictBandwidth),
        _ => None,
    }, value => match value {
        None => 0,
        Some(Midi1Port::DontRestrictBandwidth) => 1,
        Some(Midi1Port::RestrictBandwidth) => 2,
    };
    Direction, u32: number => match number {
        1 => Direction::Input,
        2 => Direction::Output,
        _ => Direction::Bidirectional,
    }, value => match value {
        Direction::Input => 1,
        Direction::Output => 2,
        Direction::Bidirectional => 3,
    };
}

octets! { 3 4 }
