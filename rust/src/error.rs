//! What a call on a message of one kind can answer in place of a result.

use crate::{Kind, Refusal};
use std::error;
use std::fmt;

/// Why a message was not read, made or given its text: a [`Refusal`], and what helps to mend it.
///
/// Each error has the number and place of a refusal, and becomes one with `?` in a function that
/// answers [`Refusal`].
///
/// ```
/// use frayedbin::{EndpointName, Error, Kind, Refusal};
///
/// let info = [0xF001_0101, 0, 0, 0];
/// let error = EndpointName::read(info).unwrap_err();
/// let (expected, found) = (Kind::EndpointName, Kind::EndpointInfo);
/// assert_eq!(error, Error::WrongKind { expected, found });
/// assert_eq!(error.to_string(), "expected endpoint-name, found endpoint-info");
///
/// let mut name = EndpointName::new([0; 8])?;
/// let error = name.set_name("longer than two packets have room for").unwrap_err();
/// assert_eq!(error.to_string(), "a text of 37 bytes is too long: at most 28 bytes fit here");
/// assert_eq!(error.refusal(), Refusal::NoRoom);
/// assert_eq!(error.number(), 14);
/// # Ok::<(), Error>(())
/// ```
#[derive(Clone, Copy, Debug, PartialEq, Eq, Hash)]
#[non_exhaustive]
pub enum Error {
    /// A refusal that needs no more words.
    Refused(Refusal),
    /// The words are a message, but one of another kind. As a refusal it is 13.
    WrongKind {
        /// The kind that the call is for.
        expected: Kind,
        /// The message's kind.
        found: Kind,
    },
    /// The text takes more than 64 packets, refusal 3, or more than the buffer has, refusal 14.
    TextTooLong {
        /// Which of the two it is.
        refusal: Refusal,
        /// The bytes of the text.
        length: usize,
        /// The most bytes that this message can have in this buffer.
        most: usize,
    },
}

impl Error {
    /// The refusal, without what helps.
    #[must_use]
    pub fn refusal(&self) -> Refusal {
        match *self {
            Error::Refused(refusal) | Error::TextTooLong { refusal, .. } => refusal,
            Error::WrongKind { .. } => Refusal::NoSuchField,
        }
    }

    /// The refusal's number, as [`Refusal::number`].
    #[must_use]
    pub fn number(&self) -> u32 {
        self.refusal().number()
    }

    /// The refusal's place, as [`Refusal::place`].
    #[must_use]
    pub fn place(&self) -> usize {
        self.refusal().place()
    }
}

impl From<Refusal> for Error {
    fn from(refusal: Refusal) -> Error {
        Error::Refused(refusal)
    }
}

impl From<Error> for Refusal {
    fn from(error: Error) -> Refusal {
        error.refusal()
    }
}

impl fmt::Display for Error {
    fn fmt(&self, f: &mut fmt::Formatter<'_>) -> fmt::Result {
        match self {
            Error::Refused(refusal) => refusal.fmt(f),
            Error::WrongKind { expected, found } => write!(f, "expected {expected}, found {found}"),
            Error::TextTooLong { length, most, .. } => write!(
                f,
                "a text of {length} bytes is too long: at most {most} bytes fit here"
            ),
        }
    }
}

impl error::Error for Error {}
