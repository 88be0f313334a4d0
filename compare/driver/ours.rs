//! Our side: the C interface of libfrayedbin.a as a `Side`.

use crate::c_face::*;
use crate::side::{Answer, Side};
use oracle::oracle::{Message, Part};

pub struct Ours;

/// The record as a message; where a number after the kind's last, or a reserved one, is not 0, its status is one of no kind.
fn message(record: &Record) -> Message {
    let count = match record.status {
        0x00 => 7,
        0x01 => 8,
        0x02 | 0x11 => 9,
        0x12 => 1,
        _ => 0,
    };
    let is_clean = record.number[count..].iter().chain(&record.reserved).all(|number| *number == 0);
    let status = if is_clean { record.status as u16 } else { u16::MAX };
    Message { status, packets: record.packets, count, fields: record.number }
}

fn is_text_kind(status: u32) -> bool {
    matches!(status, 0x03 | 0x04 | 0x12)
}

/// Every byte by the step, to the end.
fn take_text(words: &[u32], text: &mut Vec<u8>) {
    text.clear();
    let (mut packet, mut byte) = (0, 0);
    loop {
        let next = unsafe { frayedbin_next_byte(words.as_ptr(), words.len(), packet, byte) };
        if next.byte == 0 {
            return;
        }
        text.push(next.byte as u8);
        packet = next.packet;
        byte = next.byte_number;
    }
}

fn done<T>(refusal: u32, place: usize, value: impl FnOnce() -> T) -> Answer<T> {
    match refusal {
        0 => Answer::Done(value()),
        _ => Answer::Refused(refusal, place as u32, ""),
    }
}

impl Side for Ours {
    fn packet(&self, words: &[u32]) -> Answer<([u32; 4], u8)> {
        let a = unsafe { frayedbin_packet(words.as_ptr(), words.len()) };
        done(a.refusal, a.place, || (a.word, a.format as u8))
    }

    fn read(&self, words: &[u32], text: &mut Vec<u8>) -> Answer<Message> {
        let a = unsafe { frayedbin_read(words.as_ptr(), words.len()) };
        if a.refusal == 0 && is_text_kind(a.record.status) {
            take_text(words, text);
        }
        done(a.refusal, a.place, || message(&a.record))
    }

    fn first(&self, words: &[u32], text: &mut Vec<u8>) -> Answer<(Message, usize)> {
        let a = unsafe { frayedbin_walk(words.as_ptr(), words.len(), 0) };
        match a.found {
            FOUND_END => Answer::Refused(1, 0, ""),
            FOUND_OTHER => Answer::Refused(4, 0, ""),
            FOUND_MESSAGE => {
                if is_text_kind(a.record.status) {
                    take_text(&words[..a.next], text);
                }
                Answer::Done((message(&a.record), a.next))
            }
            _ => Answer::Refused(a.refusal, a.place as u32, ""),
        }
    }

    fn size(&self, words: &[u32]) -> Answer<usize> {
        let a = unsafe { frayedbin_message_size(words.as_ptr(), words.len()) };
        done(a.refusal, a.place, || a.words)
    }

    fn text(&self, words: &[u32], text: &mut Vec<u8>) -> Answer<()> {
        take_text(words, text);
        Answer::Done(())
    }

    fn step(&self, words: &[u32], packet: u32, byte: u32) -> Answer<(Option<u8>, u32, u32)> {
        let a = unsafe { frayedbin_next_byte(words.as_ptr(), words.len(), packet as usize, byte as usize) };
        let next = if a.byte == 0 { None } else { Some(a.byte as u8) };
        Answer::Done((next, a.packet as u32, a.byte_number as u32))
    }

    fn whole_text(&self, words: &[u32], lent: &mut [u8]) -> (Answer<()>, usize) {
        let a = unsafe { frayedbin_text(words.as_ptr(), words.len(), lent.as_mut_ptr(), lent.len()) };
        (done(a.refusal, a.place, || ()), a.length)
    }

    fn fresh(&self, status: u16, words: &mut [u32]) -> Answer<()> {
        let a = unsafe { frayedbin_fresh(words.as_mut_ptr(), words.len(), status as u32) };
        done(a.refusal, a.place, || ())
    }

    fn set_text(&self, status: u16, words: &mut [u32], text: &[u8]) -> Answer<()> {
        let (at, length) = (words.as_mut_ptr(), words.len());
        let set = match status {
            0x03 => frayedbin_endpoint_name_set_name,
            0x04 => frayedbin_product_instance_id_set_id,
            0x12 => frayedbin_function_block_name_set_name,
            _ => return Answer::Unasked,
        };
        let a = unsafe { set(at, length, text.as_ptr(), text.len()) };
        done(a.refusal, a.place, || ())
    }

    fn set_field(&self, status: u16, field: usize, v: &[u32; 4], words: &mut [u32]) -> Answer<()> {
        // A flag is a bool there: no other number can be handed over.
        if v[0] > 1 && is_flag(status, field) {
            return Answer::Unasked;
        }
        let (at, length) = (words.as_mut_ptr(), words.len());
        let set = unsafe { set(status, field, v, at, length) };
        set.map_or(Answer::Unasked, |a| done(a.refusal, a.place, || ()))
    }

    fn part(&self, _: Part, _: u32, _: usize) -> Answer<u32> {
        Answer::Unasked
    }

    fn set_part(&self, _: Part, _: u32, _: usize, _: u32) -> Answer<u32> {
        Answer::Unasked
    }
}
