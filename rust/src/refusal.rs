//! Why a call is refused.

use crate::sys::{self, Answer};
use std::error::Error;
use std::fmt;

/// Why a call is refused: a number, a place and a sentence. A refused call changes no word.
///
/// The cases that have a place hold it: the first packet that is refused, counted from 0 at the
/// message's start.
///
/// ```
/// use frayedbin::{EndpointInfo, Refusal};
///
/// let mut info = EndpointInfo::new([0; 4])?;
/// let refusal = info.set_number_of_function_blocks(128).unwrap_err();
/// assert_eq!(refusal, Refusal::NumberTooLarge);
/// assert_eq!(refusal.number(), 12);
/// assert_eq!(refusal.place(), 0);
/// let sentence = "a number is above its field's largest, or a code names no choice";
/// assert_eq!(refusal.sentence(), sentence);
/// assert_eq!(refusal.to_string(), format!("refusal 12: {sentence}"));
/// # Ok::<(), frayedbin::Error>(())
/// ```
#[derive(Clone, Copy, Debug, PartialEq, Eq, Hash)]
#[non_exhaustive]
pub enum Refusal {
    /// 1: there are fewer than four words, or the words end before the message does.
    TooFewWords,
    /// 2: the length is not a multiple of four words.
    NotWholePackets,
    /// 3: there are more than 64 packets, or a text needs more.
    TooManyPackets,
    /// 4: a packet's type is not F.
    WrongType(usize),
    /// 5: the status is none of the seven.
    UnknownStatus,
    /// 6: a later packet has another status.
    StatusDiffers(usize),
    /// 7: a packet's format is not the one due.
    WrongFormat(usize),
    /// 8: a later packet has another block number.
    BlockNumberDiffers(usize),
    /// 9: the MIDI 1.0 port is 3.
    BadPort,
    /// 10: the direction is 0.
    BadDirection,
    /// 11: the text is not UTF-8.
    NotUtf8,
    /// 12: a number is above its field's largest.
    NumberTooLarge,
    /// 13: this kind has no such field.
    NoSuchField,
    /// 14: the buffer has too little room.
    NoRoom,
    /// A number that has no name here: the library is newer than this crate.
    Other {
        /// The refusal's number.
        number: u32,
        /// The refusal's place.
        place: usize,
    },
}

impl Refusal {
    /// What an answer's two numbers say: done, or refused.
    #[inline]
    pub(crate) fn check(number: u32, place: usize) -> Result<(), Refusal> {
        match number {
            0 => Ok(()),
            _ => Err(Refusal::of(number, place)),
        }
    }

    /// The refusal of a number. It stands apart, so that calls that are done pass it by.
    #[cold]
    #[inline(never)]
    fn of(number: u32, place: usize) -> Refusal {
        match number {
            1 => Refusal::TooFewWords,
            2 => Refusal::NotWholePackets,
            3 => Refusal::TooManyPackets,
            4 => Refusal::WrongType(place),
            5 => Refusal::UnknownStatus,
            6 => Refusal::StatusDiffers(place),
            7 => Refusal::WrongFormat(place),
            8 => Refusal::BlockNumberDiffers(place),
            9 => Refusal::BadPort,
            10 => Refusal::BadDirection,
            11 => Refusal::NotUtf8,
            12 => Refusal::NumberTooLarge,
            13 => Refusal::NoSuchField,
            14 => Refusal::NoRoom,
            _ => Refusal::Other { number, place },
        }
    }

    /// The refusal's number, 1 to 14.
    #[must_use]
    pub fn number(&self) -> u32 {
        match *self {
            Refusal::TooFewWords => 1,
            Refusal::NotWholePackets => 2,
            Refusal::TooManyPackets => 3,
            Refusal::WrongType(_) => 4,
            Refusal::UnknownStatus => 5,
            Refusal::StatusDiffers(_) => 6,
            Refusal::WrongFormat(_) => 7,
            Refusal::BlockNumberDiffers(_) => 8,
            Refusal::BadPort => 9,
            Refusal::BadDirection => 10,
            Refusal::NotUtf8 => 11,
            Refusal::NumberTooLarge => 12,
            Refusal::NoSuchField => 13,
            Refusal::NoRoom => 14,
            Refusal::Other { number, .. } => number,
        }
    }

    /// The packet that is refused, counted from 0 at the message's start, and 0 for a refusal
    /// that has no place.
    #[must_use]
    pub fn place(&self) -> usize {
        self.packet().unwrap_or(0)
    }

    /// The library's sentence, with no number.
    #[must_use]
    pub fn sentence(&self) -> String {
        sys::refusal_text(self.number())
    }

    /// The place, where the refusal has one.
    fn packet(&self) -> Option<usize> {
        match *self {
            Refusal::WrongType(packet)
            | Refusal::StatusDiffers(packet)
            | Refusal::WrongFormat(packet)
            | Refusal::BlockNumberDiffers(packet)
            | Refusal::Other { place: packet, .. } => Some(packet),
            _ => None,
        }
    }
}

/// The number, the sentence, and the place where there is one.
impl fmt::Display for Refusal {
    fn fmt(&self, f: &mut fmt::Formatter<'_>) -> fmt::Result {
        write!(f, "refusal {}: {}", self.number(), self.sentence())?;
        match self.packet() {
            Some(packet) => write!(f, ", packet {packet}"),
            None => Ok(()),
        }
    }
}

impl Error for Refusal {}

impl Answer {
    #[inline]
    pub fn done(self) -> Result<(), Refusal> {
        Refusal::check(self.refusal, self.place)
    }
}
