//! The classes of partings that docs/DIFFERENCES.md lists, and which one a parting falls in.

use crate::side::{Outcome, Question, Verdict};
use oracle::oracle::NO_SUCH_NUMBER;

#[derive(Clone, Copy, Debug, PartialEq, Eq, PartialOrd, Ord)]
pub enum Class {
    Growth,
    Trailing,
    Lengths,
    CutShort,
    Several,
    TooMany,
    LaterType,
    OtherKinds,
    NoEnd,
    OutsidePlace,
    Index,
    Large,
}

impl Class {
    pub fn name(self) -> &'static str {
        match self {
            Class::Growth => "block number on growth",
            Class::Trailing => "block number in trailing packets",
            Class::Lengths => "lengths that are not whole packets",
            Class::CutShort => "a last packet cut short",
            Class::Several => "fixed kinds in several packets",
            Class::TooMany => "more than 64 packets",
            Class::LaterType => "a later packet of another type",
            Class::OtherKinds => "status of the five other kinds",
            Class::NoEnd => "no packet ends the message",
            Class::OutsidePlace => "a text place outside its packet",
            Class::Index => "bit_ops, index out of range",
            Class::Large => "bit_ops, a value too large",
        }
    }
}

fn status(words: &[u32]) -> u32 {
    words.first().map_or(0, |word| word >> 16 & 0x3FF)
}

fn is_fixed(words: &[u32]) -> bool {
    matches!(status(words), 0x00 | 0x01 | 0x02 | 0x11)
}

/// No whole packet is Complete or End, so that the Rust's `message_size` panics.
fn has_no_end(words: &[u32]) -> bool {
    words.chunks_exact(4).all(|packet| matches!(packet[0] >> 26 & 3, 1 | 2))
}

/// The two differ in nothing but the block numbers of packets after the message that the words began with.
fn differ_past_message(found: &[u32], a: &[u32], b: &[u32]) -> bool {
    let ended = found.chunks_exact(4).position(|packet| matches!(packet[0] >> 26 & 3, 0 | 3));
    let end = ended.map_or(0, |at| at * 4 + 4);
    let pairs = a.iter().zip(b).enumerate();
    a.len() == b.len()
        && pairs.into_iter().all(|(at, (x, y))| x == y || at >= end && at % 4 == 0 && (x ^ y) & !0xFF00 == 0)
}

fn of_refused(question: &Question, number: u32, place: u32) -> Option<Class> {
    let (words, whole) = match question {
        Question::Read(words) => (words, true),
        Question::First(words)
        | Question::SetText(_, words, _)
        | Question::Grow(_, words, _)
        | Question::SetField(_, _, _, words) => (words, false),
        _ => return None,
    };
    match number {
        2 if whole && words.len() % 4 != 0 => Some(Class::Lengths),
        3 => Some(Class::TooMany),
        4 if whole && place > 0 => Some(Class::LaterType),
        5 if matches!(status(words), 0x05 | 0x06 | 0x10 | 0x20 | 0x21) => Some(Class::OtherKinds),
        7 if place == 1 && is_fixed(words) => Some(Class::Several),
        _ => None,
    }
}

fn of_done(question: &Question, ours: &Outcome, rust: &Outcome) -> Option<Class> {
    match question {
        Question::SetText(0x12, words, _) | Question::Grow(0x12, words, _)
            if differ_past_message(words, &ours.words, &rust.words) =>
        {
            Some(Class::Growth)
        }
        Question::SetField(0x12, 0, _, words) if differ_past_message(words, &ours.words, &rust.words) => {
            Some(Class::Trailing)
        }
        Question::Step(..) => of_step(question),
        _ => None,
    }
}

fn of_step(question: &Question) -> Option<Class> {
    match question {
        Question::Step(words, packet, byte) => {
            let capacity = 14 - (status(words) == 0x12) as u32;
            let outside = (*packet as usize) < words.len() / 4 && *byte >= capacity;
            Some(Class::OutsidePlace).filter(|_| outside)
        }
        _ => None,
    }
}

fn of_panic(question: &Question) -> Option<Class> {
    match question {
        Question::Read(words) if words.len() % 4 != 0 && has_no_end(words) => Some(Class::CutShort),
        Question::Size(words)
        | Question::First(words)
        | Question::Grow(_, words, _)
        | Question::SetText(_, words, _)
        | Question::SetField(_, _, _, words) => Some(Class::NoEnd).filter(|_| has_no_end(words)),
        Question::Step(..) => of_step(question),
        Question::Part(..) | Question::SetPart(..) => Some(Class::Index),
        _ => None,
    }
}

/// The class of a parting, if it is in one.
pub fn of(question: &Question, ours: &Outcome, rust: &Outcome) -> Option<Class> {
    match (ours.verdict, rust.verdict) {
        (Verdict::Refused(number, place, _), Verdict::Done) => of_refused(question, number, place),
        (Verdict::Done, Verdict::Done) => of_done(question, ours, rust),
        (_, Verdict::Panicked) => of_panic(question),
        (Verdict::Done, Verdict::Refused(_, _, NO_SUCH_NUMBER)) => match question {
            Question::SetPart(..) => Some(Class::Large),
            _ => None,
        },
        _ => None,
    }
}
