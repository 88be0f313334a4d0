//! Buffers that a message is written in.

use crate::MOST_WORDS;

/// Words that a message is written in.
///
/// An array, a slice and a boxed slice have a fixed size: what does not fit is refusal 14. A
/// `Vec` grows and shrinks. After `new`, and after each text that is set, its length is exactly
/// that of the message, so that equal settings give equal vectors. A refused call leaves its
/// length as it was.
///
/// ```
/// use frayedbin::{EndpointName, Error};
///
/// let mut name = EndpointName::new(Vec::new())?;
/// name.set_name("a name for three packets: 34 bytes")?;
/// assert_eq!(name.data().len(), 12);
/// name.set_name("short")?;
/// assert_eq!(name.into_buffer(), [0xF003_7368, 0x6F72_7400, 0, 0]);
/// # Ok::<(), Error>(())
/// ```
///
/// A type of your own that has a fixed size needs no method:
///
/// ```
/// use frayedbin::{Buffer, EndpointInfo, Error};
///
/// struct Slot([u32; 4]);
///
/// impl AsRef<[u32]> for Slot {
///     fn as_ref(&self) -> &[u32] {
///         &self.0
///     }
/// }
///
/// impl AsMut<[u32]> for Slot {
///     fn as_mut(&mut self) -> &mut [u32] {
///         &mut self.0
///     }
/// }
///
/// impl Buffer for Slot {}
///
/// let info = EndpointInfo::new(Slot([0; 4]))?;
/// assert_eq!(info.data(), [0xF001_0000, 0, 0, 0]);
/// # Ok::<(), Error>(())
/// ```
pub trait Buffer: AsRef<[u32]> + AsMut<[u32]> {
    /// How many words it can have: as many as it has, unless it grows.
    fn room(&self) -> usize {
        self.as_ref().len()
    }

    /// Makes it so many words long, where it can be; words that are added are zero, and those
    /// that stay are kept. A buffer of fixed size does nothing.
    fn resize(&mut self, words: usize) {
        let _ = words;
    }
}

impl Buffer for [u32] {}

impl<const N: usize> Buffer for [u32; N] {}

impl Buffer for Box<[u32]> {}

/// It grows to the longest message.
impl Buffer for Vec<u32> {
    #[inline]
    fn room(&self) -> usize {
        MOST_WORDS
    }

    /// Where memory runs out it stays as it is.
    #[inline]
    fn resize(&mut self, words: usize) {
        let missing = words.saturating_sub(self.len());
        if missing == 0 || self.try_reserve(missing).is_ok() {
            Vec::resize(self, words, 0);
        }
    }
}

/// As the buffer that is lent: a slice is fixed, a `Vec` grows.
impl<B: Buffer + ?Sized> Buffer for &mut B {
    #[inline]
    fn room(&self) -> usize {
        (**self).room()
    }

    #[inline]
    fn resize(&mut self, words: usize) {
        (**self).resize(words);
    }
}

/// A buffer that a message can start in without being given one: an array of zeros, or an empty
/// `Vec`.
///
/// The standard `Default` would do, but arrays of more than 32 words do not have it.
pub trait BufferDefault: Buffer {
    /// Makes the buffer.
    fn buffer_default() -> Self;
}

impl<const N: usize> BufferDefault for [u32; N] {
    #[inline]
    fn buffer_default() -> [u32; N] {
        [0; N]
    }
}

impl BufferDefault for Vec<u32> {
    #[inline]
    fn buffer_default() -> Vec<u32> {
        Vec::new()
    }
}
