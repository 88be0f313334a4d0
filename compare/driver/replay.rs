//! A list of questions with the Rust's answers, for a program that replays it without the Rust.

use crate::classes;
use crate::gen;
use crate::plain::Plain;
use crate::rust_side::RustSide;
use crate::side::{ask, needed, Outcome, Question, Verdict};
use crate::tally::hex_bytes;
use crate::vectors::kind_name;
use std::collections::BTreeMap;

/// So many random questions are looked at.
const QUESTIONS: u64 = 400_000;

/// What is asked, the kind that is read, why the Rust refuses it, and how long it is: the list has cases of each.
type Sort = (u8, &'static str, &'static str, Length);

/// A case for the program's input, and the line that it must print.
type Case = (Vec<u8>, String);

#[derive(Clone, Copy, PartialEq, Eq, PartialOrd, Ord)]
enum Length {
    One,
    Few,
    Long,
    Longest,
}

/// One case of the long ones is enough, so that the files stay small.
fn room(length: Length, count: usize) -> usize {
    match length {
        Length::One | Length::Few => count,
        Length::Long | Length::Longest => 1,
    }
}

fn length(asked: u8, words: &[u32], data: &[u8]) -> Length {
    let set = if asked == 0x00 || asked == 0x13 { 0 } else { needed(asked as u16, data.len()) };
    match set.max((words.len() + 3) / 4) {
        0 | 1 => Length::One,
        2..=12 => Length::Few,
        64 => Length::Longest,
        _ => Length::Long,
    }
}

/// The byte for what is asked, the words, and what is set. The program is asked for no more than this.
fn asked<'a>(question: &Question<'a>) -> Option<(u8, &'a [u32], Vec<u8>)> {
    match *question {
        Question::Read(words) => Some((0x00, words, Vec::new())),
        Question::SetText(status, words, text) => Some((status as u8, words, text.to_vec())),
        Question::SetField(0x12, 0, v, words) => Some((0x13, words, v[0].to_be_bytes().to_vec())),
        _ => None,
    }
}

/// The refused ones go by the Rust's sentence, the long of them by none.
fn sort(asked: u8, words: &[u32], data: &[u8], why: &'static str) -> Sort {
    let status = words.first().map_or(0, |word| word >> 16 & 0x3FF);
    let kind = if asked == 0x00 { kind_name(status as u16) } else { "" };
    match length(asked, words, data) {
        length if why.is_empty() => (asked, kind, why, length),
        Length::One | Length::Few => (asked, kind, why, Length::Few),
        Length::Long | Length::Longest => (asked, kind, "refused", Length::Long),
    }
}

fn case(asked: u8, words: &[u32], data: &[u8]) -> Vec<u8> {
    let mut bytes = vec![asked];
    bytes.extend((words.len() as u16).to_be_bytes());
    bytes.extend((data.len() as u16).to_be_bytes());
    words.iter().for_each(|word| bytes.extend(word.to_be_bytes()));
    bytes.extend(data);
    bytes
}

/// A message as a line of the listing says it.
fn message_line(rust: &Outcome) -> String {
    let status = rust.numbers[0] as u16;
    let mut line = format!(" {}", kind_name(status));
    rust.numbers[1..].iter().for_each(|n| line += &format!(" {}", n));
    if matches!(status, 0x03 | 0x04 | 0x12) {
        line += &format!(" {}", hex_bytes(&rust.text));
    }
    line
}

fn line(asked: u8, rust: &Outcome) -> (&'static str, String) {
    match rust.verdict {
        Verdict::Done if asked == 0x00 => ("", message_line(rust)),
        Verdict::Done => {
            ("", rust.words.iter().fold(" done".to_string(), |line, word| line + &format!(" {:08x}", word)))
        }
        Verdict::Refused(_, _, why) => (why, " refused".to_string()),
        Verdict::Panicked | Verdict::Unasked => ("panics", " panics".to_string()),
    }
}

/// The cases of each sort. Left out is only what is in a listed class of partings; 01 read plainly tells it. A parting in no
/// class is kept like any other question, so that the program fails on it.
fn cases(seed: u64, count: usize) -> BTreeMap<Sort, Vec<Case>> {
    let mut sorts = BTreeMap::<Sort, Vec<Case>>::new();
    let (mut rust, mut plain) = (Outcome::default(), Outcome::default());
    gen::random(&mut gen::Random::new(seed), QUESTIONS, &mut |question: &Question| {
        if let Some((asked, words, data)) = asked(question) {
            ask(&RustSide, question, &mut rust);
            ask(&Plain, question, &mut plain);
            if !plain.agrees(&rust) && classes::of(question, &plain, &rust).is_some() {
                return;
            }
            let (why, line) = line(asked, &rust);
            let sort = sort(asked, words, &data, why);
            let kept = sorts.entry(sort).or_default();
            if kept.len() < room(sort.3, count) {
                kept.push((case(asked, words, &data), line));
            }
        }
    });
    sorts
}

/// So many cases of messages read or of settings, done or refused: one of each sort in turn.
fn in_turn(sorts: &BTreeMap<Sort, Vec<Case>>, reads: bool, done: bool, count: usize) -> Vec<Case> {
    let is_of = |sort: &Sort| (sort.0 == 0x00) == reads && sort.2.is_empty() == done;
    let of: Vec<_> = sorts.iter().filter(|(sort, _)| is_of(sort)).map(|(_, cases)| cases).collect();
    let turns = (0..count).flat_map(|turn| of.iter().filter_map(move |cases| cases.get(turn)));
    turns.take(count).cloned().collect()
}

/// Writes the files stdin and stdout in a folder: two thirds are messages read, a third is settings, half of each refused.
pub fn replay(seed: u64, count: usize, folder: &str) -> bool {
    let sorts = cases(seed, count);
    let mut list = in_turn(&sorts, true, true, count / 3);
    list.extend(in_turn(&sorts, true, false, count / 3));
    list.extend(in_turn(&sorts, false, true, count / 6));
    list.extend(in_turn(&sorts, false, false, count - count / 3 * 2 - count / 6));
    let stdin: Vec<u8> = list.iter().flat_map(|case| case.0.iter().copied()).collect();
    let stdout: String = list.iter().map(|case| case.1.clone() + "\n").collect();
    let put = |name: &str, bytes: &[u8]| std::fs::write(format!("{}/{}", folder, name), bytes).expect(name);
    put("stdin", &stdin);
    put("stdout", stdout.as_bytes());
    println!("{} cases of {} sorts, {} and {} bytes", list.len(), sorts.len(), stdin.len(), stdout.len());
    list.len() == count
}
