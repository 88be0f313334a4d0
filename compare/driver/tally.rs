//! Counts what two sides answer, and keeps the smallest input of each class of partings.

use crate::classes::{self, Class};
use crate::side::{Outcome, Question, Verdict};
use crate::vectors::kind_name;
use std::collections::BTreeMap;

/// How small an input is: words, text, words that are not zero, then the words themselves.
type Smallness = (usize, usize, usize, Vec<u32>, String);

#[derive(Default)]
pub struct Tally {
    pub answers: u64,
    pub equal: u64,
    pub refused: BTreeMap<(u32, &'static str), u64>,
    pub classes: BTreeMap<Class, (u64, Option<Smallness>)>,
    pub unlisted: Vec<String>,
    pub unlisted_count: u64,
}

pub fn hex_words(words: &[u32]) -> String {
    let all: Vec<String> = words.iter().map(|word| format!("{:X}", word)).collect();
    if all.is_empty() {
        "-".to_string()
    } else {
        all.join(" ")
    }
}

pub fn hex_bytes(bytes: &[u8]) -> String {
    let all: String = bytes.iter().map(|byte| format!("{:02x}", byte)).collect();
    if all.is_empty() {
        "-".to_string()
    } else {
        all
    }
}

pub fn show_question(question: &Question) -> String {
    match question {
        Question::Packet(words) => format!("packet {}", hex_words(words)),
        Question::Read(words) => format!("read {}", hex_words(words)),
        Question::First(words) => format!("first {}", hex_words(words)),
        Question::Size(words) => format!("size {}", hex_words(words)),
        Question::Text(words) => format!("text {}", hex_words(words)),
        Question::Step(words, packet, byte) => format!("step {} @ {} {}", hex_words(words), packet, byte),
        Question::WholeText(words, room) => format!("whole-text {} in {}", hex_words(words), room),
        Question::Fresh(status, words) => format!("fresh {} {}", kind_name(*status), hex_words(words)),
        Question::SetText(status, words, text) => {
            format!("set-text {} {} {}", kind_name(*status), hex_bytes(text), hex_words(words))
        }
        Question::Grow(status, words, text) => {
            format!("grow {} {} {}", kind_name(*status), hex_bytes(text), hex_words(words))
        }
        Question::SetField(status, field, v, words) => {
            format!("set-field {} {} {:?} {}", kind_name(*status), field, v, hex_words(words))
        }
        Question::Part(part, word, index) => format!("{:?} {:X} {}", part, word, index),
        Question::SetPart(part, word, index, v) => format!("set {:?} {:X} {} {}", part, word, index, v),
    }
}

pub fn show_outcome(out: &Outcome) -> String {
    match out.verdict {
        Verdict::Done if out.words.is_empty() => format!("{:?} {}", out.numbers, hex_bytes(&out.text)),
        Verdict::Done => format!("done {}", hex_words(&out.words)),
        Verdict::Refused(0, _, why) => format!("refused: {}", why),
        Verdict::Refused(number, place, _) => format!("refused {} {}", number, place),
        Verdict::Panicked => "panics".to_string(),
        Verdict::Unasked => "not asked".to_string(),
    }
}

/// The words and the text of a question; of the bit operations, its numbers.
fn lent(question: &Question) -> (Vec<u32>, usize) {
    match question {
        Question::Packet(w) | Question::Read(w) | Question::First(w) | Question::Size(w) | Question::Text(w) => {
            (w.to_vec(), 0)
        }
        Question::Step(w, _, _) | Question::Fresh(_, w) | Question::SetField(_, _, _, w) => (w.to_vec(), 0),
        Question::WholeText(w, _) => (w.to_vec(), 0),
        Question::SetText(_, w, text) | Question::Grow(_, w, text) => (w.to_vec(), text.len()),
        Question::Part(_, word, index) => (vec![*index as u32, *word], 0),
        Question::SetPart(_, word, index, v) => (vec![*v, *index as u32, *word], 0),
    }
}

fn smallness(question: &Question, told: impl FnOnce() -> String, than: Option<&Smallness>) -> Option<Smallness> {
    let (words, text) = lent(question);
    let full = words.iter().filter(|word| **word != 0).count();
    if let Some(kept) = than {
        if (words.len(), text, full, &words) >= (kept.0, kept.1, kept.2, &kept.3) {
            return None;
        }
    }
    Some((words.len(), text, full, words, told()))
}

impl Tally {
    /// Takes one question's two answers: ours, or what stands in for it, then the Rust's.
    pub fn take(&mut self, question: &Question, ours: &Outcome, rust: &Outcome) {
        if ours.verdict == Verdict::Unasked || rust.verdict == Verdict::Unasked {
            return;
        }
        self.answers += 1;
        if let (Verdict::Refused(number, _, _), Verdict::Refused(_, _, why)) = (ours.verdict, rust.verdict) {
            *self.refused.entry((number, why)).or_insert(0) += 1;
        }
        if ours.agrees(rust) {
            self.equal += 1;
            return;
        }
        let tell =
            || format!("{}\n    here {}\n    Rust {}", show_question(question), show_outcome(ours), show_outcome(rust));
        match classes::of(question, ours, rust) {
            None => {
                self.unlisted_count += 1;
                if self.unlisted.len() < 20 {
                    self.unlisted.push(tell());
                }
            }
            Some(class) => {
                let kept = self.classes.entry(class).or_insert((0, None));
                kept.0 += 1;
                if let Some(smaller) = smallness(question, tell, kept.1.as_ref()) {
                    kept.1 = Some(smaller);
                }
            }
        }
    }

    pub fn print(&self) {
        println!(
            "answers {}, equal {}, in a listed class {}, in none {}",
            self.answers,
            self.equal,
            self.answers - self.equal - self.unlisted_count,
            self.unlisted_count
        );
        for (class, (count, smallest)) in &self.classes {
            println!("{} times: {}\n  {}", count, class.name(), smallest.as_ref().map_or("", |s| &s.4));
        }
        println!("refused by both, by number here and by what the Rust says:");
        for ((number, why), count) in &self.refused {
            println!("  {} | {} | {}", number, why, count);
        }
        for line in &self.unlisted {
            println!("in no class: {}", line);
        }
    }
}
