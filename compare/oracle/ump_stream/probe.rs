//! The private functions and fields of the given `ump_stream.rs`, handed to the oracle.

use super::*;
use crate::error::InvalidData;
use property::{ReadProperty, WriteProperty};

pub(crate) fn size(words: &[u32]) -> usize {
    message_size(&words)
}

pub(crate) fn status(words: &[u32]) -> u16 {
    status_from_buffer(words)
}

pub(crate) fn formats(words: &mut [u32]) {
    set_format_fields(words)
}

pub(crate) fn clear(words: &mut [u32], offset: usize) {
    match offset {
        0 => clear_payload::<0>(words),
        _ => clear_payload::<1>(words),
    }
}

pub(crate) fn headers(words: &mut [u32], size: usize) {
    write_message_header_data(words, size)
}

pub(crate) fn needed(text: &str, offset: usize) -> usize {
    match offset {
        0 => required_buffer_size_for_str::<0>(text),
        _ => required_buffer_size_for_str::<1>(text),
    }
}

/// The text's bytes, as the messages' own iterators give them.
pub(crate) fn bytes<'a>(words: &'a &'a [u32], offset: usize) -> TextBytesIterator<'a> {
    match offset {
        0 => <TextReadBytesProperty as ReadProperty<&[u32]>>::read(words),
        _ => <function_block_name::TextReadBytesProperty as ReadProperty<&[u32]>>::read(words),
    }
}

pub(crate) fn is_text(words: &[u32], offset: usize) -> Result<(), InvalidData> {
    match offset {
        0 => <TextReadStringProperty as ReadProperty<&[u32]>>::validate(&words),
        _ => <function_block_name::TextReadStringProperty as ReadProperty<&[u32]>>::validate(&words),
    }
}

/// One step of the iterator from a place that the caller keeps.
pub(crate) fn step(words: &[u32], offset: usize, packet: usize, byte: usize) -> (Option<u8>, usize, usize) {
    let mut text = TextBytesIterator { buffer: words, packet_index: packet, byte_index: byte, offset };
    let next = text.next();
    (next, text.packet_index, text.byte_index)
}

/// The checks of formats alone.
pub(crate) fn are_formats(words: &[u32]) -> Result<(), InvalidData> {
    <ConsistentFormatsProperty as ReadProperty<&[u32]>>::validate(&words)
}

/// The write of text alone, into words that have room for it.
pub(crate) fn put_text(words: &mut [u32], text: &str, offset: usize) {
    let mut buffer = words;
    match offset {
        0 => <TextWriteStrProperty<0> as WriteProperty<&mut [u32]>>::write(&mut buffer, text),
        _ => <TextWriteStrProperty<1> as WriteProperty<&mut [u32]>>::write(&mut buffer, text),
    }
}
