//! The Rust's side: the oracle's plain functions as a `Side`.

use crate::side::{Answer, Side};
use oracle::oracle::{self as rust, Message, Part, Reply};

pub struct RustSide;

fn answer<T>(reply: Reply<T>) -> Answer<T> {
    match reply {
        Reply::Done(value) => Answer::Done(value),
        Reply::Error(why) => Answer::Refused(0, 0, why),
        Reply::Panic => Answer::Panicked,
    }
}

/// The offset of text, by the status of the first word.
fn offset(words: &[u32]) -> usize {
    (words.first().map_or(0, |word| word >> 16 & 0x3FF) == 0x12) as usize
}

impl Side for RustSide {
    fn packet(&self, words: &[u32]) -> Answer<([u32; 4], u8)> {
        answer(rust::packet(words))
    }

    fn read(&self, words: &[u32], text: &mut Vec<u8>) -> Answer<Message> {
        answer(rust::read(words, text))
    }

    fn first(&self, words: &[u32], text: &mut Vec<u8>) -> Answer<(Message, usize)> {
        match answer(rust::message_size(words)) {
            Answer::Done(size) => match answer(rust::read(&words[..size], text)) {
                Answer::Done(message) => Answer::Done((message, size)),
                Answer::Refused(number, place, why) => Answer::Refused(number, place, why),
                Answer::Panicked => Answer::Panicked,
                Answer::Unasked => Answer::Unasked,
            },
            Answer::Refused(number, place, why) => Answer::Refused(number, place, why),
            Answer::Panicked => Answer::Panicked,
            Answer::Unasked => Answer::Unasked,
        }
    }

    fn size(&self, words: &[u32]) -> Answer<usize> {
        answer(rust::message_size(words))
    }

    fn text(&self, words: &[u32], text: &mut Vec<u8>) -> Answer<()> {
        answer(rust::text_bytes(words, offset(words), text))
    }

    fn step(&self, words: &[u32], packet: u32, byte: u32) -> Answer<(Option<u8>, u32, u32)> {
        match rust::step(words, offset(words), packet as usize, byte as usize) {
            Reply::Done((next, packet, byte)) => Answer::Done((next, packet as u32, byte as u32)),
            Reply::Error(why) => Answer::Refused(0, 0, why),
            Reply::Panic => Answer::Panicked,
        }
    }

    /// The Rust gives text as a `String`, with room of its own: what it says is compared as that of a message that is read.
    fn whole_text(&self, _: &[u32], _: &mut [u8]) -> (Answer<()>, usize) {
        (Answer::Unasked, 0)
    }

    /// The Rust's new message has one packet; in a longer buffer the packets after it are zeroed here, not by the Rust.
    fn fresh(&self, status: u16, words: &mut [u32]) -> Answer<()> {
        let whole = words.len() / 4 * 4;
        if whole == 0 {
            return Answer::Refused(0, 0, "an array under the least size is not compiled");
        }
        match rust::fresh(status) {
            Reply::Done(new) => {
                words[..whole].fill(0);
                words[..4].copy_from_slice(&new);
                Answer::Done(())
            }
            Reply::Error(why) => Answer::Refused(0, 0, why),
            Reply::Panic => Answer::Panicked,
        }
    }

    fn set_text(&self, status: u16, words: &mut [u32], text: &[u8]) -> Answer<()> {
        answer(rust::set_text(status, words, text))
    }

    fn grow(&self, status: u16, words: &mut Vec<u32>, text: &[u8]) -> Answer<()> {
        match std::str::from_utf8(text) {
            Ok(text) => answer(rust::set_text_grown(status, words, text)),
            Err(_) => Answer::Refused(0, 0, rust::NO_STR),
        }
    }

    fn set_field(&self, status: u16, field: usize, v: &[u32; 4], words: &mut [u32]) -> Answer<()> {
        answer(rust::set_field(status, field, v, words))
    }

    fn part(&self, of: Part, word: u32, index: usize) -> Answer<u32> {
        answer(rust::part(of, word, index))
    }

    fn set_part(&self, of: Part, word: u32, index: usize, v: u32) -> Answer<u32> {
        answer(rust::set_part(of, word, index, v))
    }
}
