//! What the benchmark asks of the given Rust: the calls that a user of it makes, with nothing around them.

use crate::oracle::block;
use crate::traits::Size;
use crate::ump_stream::{EndpointName, FunctionBlockInfo, FunctionBlockName, UmpStream};
use std::convert::TryFrom;

/// Reads a message and all that the library's record says of it, and gives the sum: status, packets, and each field but text.
/// Given: `UmpStream::try_from`, with each property's `validate`; that of text gathers the bytes and calls std's `from_utf8`.
/// Given too: `message_size` for the packets of a text, the block number, and of a block info hint, port and direction; its
/// other fields are a stand-in's.
#[inline(never)]
pub fn read(words: &[u32]) -> Option<u32> {
    match UmpStream::try_from(words).ok()? {
        UmpStream::EndpointName(m) => Some(0x03 + m.size() as u32 / 4),
        UmpStream::FunctionBlockInfo(m) => Some(0x11 + 1 + block(&m).iter().sum::<u32>()),
        UmpStream::FunctionBlockName(m) => Some(0x12 + m.size() as u32 / 4 + m.function_block() as u32),
        _ => None,
    }
}

/// The sum of a text's bytes. Given: `TextReadBytesProperty`, `TextBytesIterator`.
#[inline(never)]
pub fn sum_of_text(words: &[u32]) -> u32 {
    EndpointName::over(words).name_bytes().fold(0, |sum, byte| sum + byte as u32)
}

/// An endpoint name as a string. Given: `TextReadStringProperty::read`, which collects `TextBytesIterator` and calls std's
/// `from_utf8`.
#[inline(never)]
pub fn name(words: &[u32]) -> String {
    EndpointName::over(words).name()
}

/// Sets an endpoint name in a buffer that cannot grow. Given: `TextWriteStrProperty::try_resize` and `write`. That the
/// words are an endpoint name is not looked at, nor is the text: their types say so.
#[inline(never)]
pub fn set_endpoint_name(words: &mut [u32], name: &str) -> bool {
    EndpointName::over(words).try_set_name(name).is_ok()
}

/// Sets the block number of a block name. Given: `FunctionBlockProperty::write`.
#[inline(never)]
pub fn set_function_block(words: &mut [u32], number: u8) {
    FunctionBlockName::over(words).set_function_block(number)
}

/// Sets whether a block is active. Given: its mask; the write through it is a stand-in's.
#[inline(never)]
pub fn set_active(words: &mut [u32], active: bool) {
    FunctionBlockInfo::over(words).set_active(active)
}
