//! One packet, and the size of a message by the formats of its packets.

use crate::{sys, Refusal};
use std::iter::FusedIterator;
use std::ops::Deref;

/// A packet's part in its message.
#[derive(Clone, Copy, Debug, PartialEq, Eq, Hash)]
pub enum Format {
    /// Code 0: the whole message.
    Complete,
    /// Code 1: the first of several.
    Start,
    /// Code 2: one in the middle.
    Continue,
    /// Code 3: the last.
    End,
}

/// The four words of a packet of type F, whatever its status.
///
/// ```
/// use frayedbin::{packet, Format, Packet, Refusal};
///
/// let first = packet(&[0xF403_6161, 0x6161_6161])?;
/// assert_eq!(first.format(), Format::Start);
/// assert_eq!(*first, [0xF403_6161, 0x6161_6161, 0, 0]);
/// assert_eq!(Packet::try_from(&[0x1000_0000][..]), Err(Refusal::WrongType(0)));
/// # Ok::<(), Refusal>(())
/// ```
#[derive(Clone, Copy, Debug, PartialEq, Eq, Hash)]
pub struct Packet {
    words: [u32; 4],
    format: Format,
}

impl Packet {
    /// The packet's format.
    #[inline]
    #[must_use]
    pub fn format(&self) -> Format {
        self.format
    }
}

impl Deref for Packet {
    type Target = [u32];

    #[inline]
    fn deref(&self) -> &[u32] {
        &self.words
    }
}

/// As [`packet`] does.
impl<'a> TryFrom<&'a [u32]> for Packet {
    type Error = Refusal;

    #[inline]
    fn try_from(words: &'a [u32]) -> Result<Packet, Refusal> {
        packet(words)
    }
}

/// The first four words, missing ones zero. No words are refusal 1, another type is refusal 4.
#[inline]
pub fn packet(words: &[u32]) -> Result<Packet, Refusal> {
    let answer = sys::packet(words);
    Refusal::check(answer.refusal, answer.place)?;
    let words = sys::kept(&answer.word, 4);
    let format = match answer.format {
        0 => Format::Complete,
        1 => Format::Start,
        2 => Format::Continue,
        _ => Format::End,
    };
    Ok(Packet { words, format })
}

/// The packets of a message, in order.
///
/// ```
/// use frayedbin::{EndpointName, Error, Format};
///
/// let mut name = EndpointName::new(Vec::new())?;
/// name.set_name("a name of thirty-one characters")?;
/// let formats: Vec<Format> = name.packets().map(|packet| packet.format()).collect();
/// assert_eq!(formats, [Format::Start, Format::Continue, Format::End]);
/// # Ok::<(), Error>(())
/// ```
#[derive(Clone, Debug)]
#[must_use = "iterators are lazy"]
pub struct Packets<'a> {
    words: &'a [u32],
}

impl<'a> Packets<'a> {
    /// The packets of a message's words.
    #[inline]
    pub(crate) fn new(words: &'a [u32]) -> Packets<'a> {
        Packets { words }
    }
}

impl Iterator for Packets<'_> {
    type Item = Packet;

    #[inline]
    fn next(&mut self) -> Option<Packet> {
        let next = packet(self.words).ok()?;
        self.words = self.words.get(4..).unwrap_or(&[]);
        Some(next)
    }

    #[inline]
    fn size_hint(&self) -> (usize, Option<usize>) {
        (0, Some(self.words.len() / 4))
    }
}

impl FusedIterator for Packets<'_> {}

/// How many words the message that a slice starts with takes, by formats alone: up to the first
/// packet that is complete or an end. Where none is, refusal 1.
///
/// ```
/// use frayedbin::{message_size, Refusal};
///
/// let words = [0xF403_6161, 0, 0, 0, 0xFC03_6100, 0, 0, 0, 0xF003_0000, 0, 0, 0];
/// assert_eq!(message_size(&words), Ok(8));
/// assert_eq!(message_size(&words[..4]), Err(Refusal::TooFewWords));
/// ```
#[inline]
pub fn message_size(words: &[u32]) -> Result<usize, Refusal> {
    let answer = sys::message_size(words);
    Refusal::check(answer.refusal, answer.place).map(|()| answer.words)
}
