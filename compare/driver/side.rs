//! The questions that both sides are asked, and how an answer is written down so that two can be compared.

use oracle::oracle::{Message, Part};

/// An answer with 01's refusal number and place. The Rust has no numbers: its refusals say 0 and a sentence.
#[derive(Clone, Copy, Debug, PartialEq, Eq)]
pub enum Answer<T> {
    Done(T),
    Refused(u32, u32, &'static str),
    Panicked,
    /// The side has no such call.
    Unasked,
}

pub trait Side {
    /// The four words of a packet and its format.
    fn packet(&self, words: &[u32]) -> Answer<([u32; 4], u8)>;
    /// One message and its text.
    fn read(&self, words: &[u32], text: &mut Vec<u8>) -> Answer<Message>;
    /// The message that the words begin with, its text, and its words.
    fn first(&self, words: &[u32], text: &mut Vec<u8>) -> Answer<(Message, usize)>;
    /// The words of the message that the words begin with, by formats alone.
    fn size(&self, words: &[u32]) -> Answer<usize>;
    /// The text's bytes, whatever the words are.
    fn text(&self, words: &[u32], text: &mut Vec<u8>) -> Answer<()>;
    /// One byte of text from a place: the byte, and the place after it.
    fn step(&self, words: &[u32], packet: u32, byte: u32) -> Answer<(Option<u8>, u32, u32)>;
    /// The whole text of one message into a lent room, and its length.
    fn whole_text(&self, words: &[u32], lent: &mut [u8]) -> (Answer<()>, usize);
    fn fresh(&self, status: u16, words: &mut [u32]) -> Answer<()>;
    fn set_text(&self, status: u16, words: &mut [u32], text: &[u8]) -> Answer<()>;
    /// The same in a buffer that holds the message alone and grows or shrinks to what the text needs.
    fn grow(&self, status: u16, words: &mut Vec<u32>, text: &[u8]) -> Answer<()> {
        let needed = needed(status, text.len()) * 4;
        let found = words.len();
        words.resize(found.max(needed), 0);
        let answer = self.set_text(status, words, text);
        words.truncate(if answer == Answer::Done(()) { needed } else { found });
        answer
    }
    /// A field by its number in 01's table; manufacturer and version take several numbers.
    fn set_field(&self, status: u16, field: usize, v: &[u32; 4], words: &mut [u32]) -> Answer<()>;
    fn part(&self, of: Part, word: u32, index: usize) -> Answer<u32>;
    fn set_part(&self, of: Part, word: u32, index: usize, v: u32) -> Answer<u32>;
}

/// The packets that so many bytes of text need.
pub fn needed(status: u16, bytes: usize) -> usize {
    let capacity = if status == 0x12 { 13 } else { 14 };
    ((bytes + capacity - 1) / capacity).max(1)
}

/// One question with all that it lends.
#[derive(Clone, Copy, Debug)]
pub enum Question<'a> {
    Packet(&'a [u32]),
    Read(&'a [u32]),
    First(&'a [u32]),
    Size(&'a [u32]),
    Text(&'a [u32]),
    Step(&'a [u32], u32, u32),
    /// With a room of so many bytes.
    WholeText(&'a [u32], usize),
    Fresh(u16, &'a [u32]),
    SetText(u16, &'a [u32], &'a [u8]),
    Grow(u16, &'a [u32], &'a [u8]),
    SetField(u16, usize, [u32; 4], &'a [u32]),
    Part(Part, u32, usize),
    SetPart(Part, u32, usize, u32),
}

impl Question<'_> {
    /// The sort of question, from 0.
    pub fn sort(&self) -> usize {
        match self {
            Question::Packet(..) => 0,
            Question::Read(..) => 1,
            Question::First(..) => 2,
            Question::Size(..) => 3,
            Question::Text(..) => 4,
            Question::Step(..) => 5,
            Question::Fresh(..) => 6,
            Question::SetText(..) => 7,
            Question::Grow(..) => 8,
            Question::SetField(..) => 9,
            Question::Part(..) => 10,
            Question::SetPart(..) => 11,
            Question::WholeText(..) => 12,
        }
    }
}

/// What came of a question: the answer's numbers, the text, and the lent words or bytes afterwards.
#[derive(Clone, Debug, Default, PartialEq, Eq)]
pub struct Outcome {
    pub verdict: Verdict,
    pub numbers: Vec<u32>,
    pub text: Vec<u8>,
    pub words: Vec<u32>,
}

#[derive(Clone, Copy, Debug, PartialEq, Eq)]
pub enum Verdict {
    Done,
    Refused(u32, u32, &'static str),
    Panicked,
    Unasked,
}

impl Default for Verdict {
    fn default() -> Verdict {
        Verdict::Unasked
    }
}

impl Outcome {
    /// Done on both sides with equal numbers and text, or refused on both; and equal lent words.
    pub fn agrees(&self, other: &Outcome) -> bool {
        match (self.verdict, other.verdict) {
            (Verdict::Done, Verdict::Done) => {
                self.numbers == other.numbers && self.text == other.text && self.words == other.words
            }
            (Verdict::Refused(..), Verdict::Refused(..)) => self.words == other.words,
            _ => false,
        }
    }

    /// The same number and place too, and every lent word; a refusal may come with numbers, such as the room that is needed.
    pub fn equals(&self, other: &Outcome) -> bool {
        match (self.verdict, other.verdict) {
            (Verdict::Refused(n, p, _), Verdict::Refused(m, q, _)) => {
                (n, p) == (m, q) && self.numbers == other.numbers && self.agrees(other)
            }
            _ => self.agrees(other),
        }
    }

    fn take<T>(&mut self, answer: Answer<T>, numbers: impl FnOnce(T, &mut Vec<u32>)) {
        self.verdict = match answer {
            Answer::Done(value) => {
                numbers(value, &mut self.numbers);
                Verdict::Done
            }
            Answer::Refused(number, place, why) => Verdict::Refused(number, place, why),
            Answer::Panicked => Verdict::Panicked,
            Answer::Unasked => Verdict::Unasked,
        };
    }
}

/// A message as numbers: status, packets, fields.
fn put_message(m: Message, numbers: &mut Vec<u32>) {
    numbers.extend_from_slice(&[m.status as u32, m.packets as u32]);
    numbers.extend_from_slice(&m.fields[..m.count]);
}

/// What a lent byte is before the call; no text has it.
const UNTOUCHED: u8 = 0xFF;

/// Asks one side, and writes its answer over the outcome given.
pub fn ask(side: &dyn Side, question: &Question, out: &mut Outcome) {
    out.numbers.clear();
    out.text.clear();
    out.words.clear();
    match question {
        Question::Fresh(_, words)
        | Question::SetText(_, words, _)
        | Question::Grow(_, words, _)
        | Question::SetField(_, _, _, words) => {
            let mut lent = std::mem::take(&mut out.words);
            lent.extend_from_slice(words);
            out.take(ask_to_write(side, question, &mut lent), |_, _| ());
            out.words = lent;
        }
        Question::WholeText(words, room) => {
            let mut lent = vec![UNTOUCHED; *room];
            let (answer, length) = side.whole_text(words, &mut lent);
            out.take(answer, |_, _| ());
            out.numbers.push(length as u32);
            out.words.extend(lent.into_iter().map(u32::from));
        }
        _ => {
            let mut text = std::mem::take(&mut out.text);
            ask_to_read(side, question, &mut text, out);
            out.text = text;
        }
    }
}

fn ask_to_write(side: &dyn Side, question: &Question, lent: &mut Vec<u32>) -> Answer<()> {
    match *question {
        Question::Fresh(status, _) => side.fresh(status, lent),
        Question::SetText(status, _, text) => side.set_text(status, lent, text),
        Question::Grow(status, _, text) => side.grow(status, lent, text),
        Question::SetField(status, field, v, _) => side.set_field(status, field, &v, lent),
        _ => Answer::Unasked,
    }
}

fn ask_to_read(side: &dyn Side, question: &Question, text: &mut Vec<u8>, out: &mut Outcome) {
    match *question {
        Question::Packet(words) => out.take(side.packet(words), |(words, format), n| {
            n.extend_from_slice(&words);
            n.push(format as u32);
        }),
        Question::Read(words) => out.take(side.read(words, text), put_message),
        Question::First(words) => out.take(side.first(words, text), |(m, size), n| {
            n.push(size as u32);
            put_message(m, n)
        }),
        Question::Size(words) => out.take(side.size(words), |size, n| n.push(size as u32)),
        Question::Text(words) => out.take(side.text(words, text), |_, _| ()),
        Question::Step(words, packet, byte) => out.take(side.step(words, packet, byte), |(byte, p, b), n| {
            n.extend_from_slice(&[byte.map_or(256, u32::from), p, b])
        }),
        Question::Part(of, word, index) => out.take(side.part(of, word, index), |v, n| n.push(v)),
        Question::SetPart(of, word, index, v) => out.take(side.set_part(of, word, index, v), |v, n| n.push(v)),
        _ => (),
    }
}
