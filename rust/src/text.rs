//! Text, as a string and a byte at a time.

use crate::sys;
use std::iter::FusedIterator;

/// The bytes of a message's text, in order and without zeros.
///
/// It takes any words, looks at whole packets only, and goes by the first word's status: the
/// text of a function block name starts a byte later than that of the other kinds.
///
/// ```
/// use frayedbin::TextBytesIterator;
///
/// let words = [0xF003_C300, 0xA900_0000, 0, 0];
/// let bytes: Vec<u8> = TextBytesIterator::new(&words).collect();
/// assert_eq!(bytes, "é".as_bytes());
/// ```
#[derive(Clone, Debug)]
#[must_use = "iterators are lazy"]
pub struct TextBytesIterator<'a> {
    words: &'a [u32],
    packet: usize,
    byte_number: usize,
}

impl<'a> TextBytesIterator<'a> {
    /// The text of some words, from the start.
    #[inline]
    pub fn new(words: &'a [u32]) -> TextBytesIterator<'a> {
        TextBytesIterator {
            words,
            packet: 0,
            byte_number: 0,
        }
    }
}

/// The text of a message of so many packets. In a message that was read it is UTF-8.
///
/// With room for 14 bytes a packet, as many as any kind has, the library need not count them first.
#[inline]
pub fn string(words: &[u32], packets: usize) -> String {
    String::from_utf8(sys::text(words, packets * 14)).unwrap_or_default()
}

impl Iterator for TextBytesIterator<'_> {
    type Item = u8;

    #[inline]
    fn next(&mut self) -> Option<u8> {
        let step = sys::next_byte(self.words, self.packet, self.byte_number);
        self.packet = step.packet;
        self.byte_number = step.byte_number;
        match step.byte {
            0 => None,
            byte => Some(byte as u8),
        }
    }

    fn size_hint(&self) -> (usize, Option<usize>) {
        let packets = (self.words.len() / 4).saturating_sub(self.packet);
        (0, Some(packets * 14))
    }
}

impl FusedIterator for TextBytesIterator<'_> {}
