//! The stored vectors, held against a side: inputs with answers from another reading of 01.

use crate::plain::Plain;
use crate::side::{ask, Outcome, Question, Side, Verdict};

const KINDS: [(&str, u16, &[&str]); 7] = [
    (
        "endpoint-discovery",
        0x00,
        &[
            "major",
            "minor",
            "asks-endpoint-info",
            "asks-device-identity",
            "asks-endpoint-name",
            "asks-product-instance-id",
            "asks-stream-configuration",
        ],
    ),
    (
        "endpoint-info",
        0x01,
        &["major", "minor", "static-blocks", "midi-2", "midi-1", "receives-jr", "sends-jr", "number-of-blocks"],
    ),
    ("device-identity", 0x02, &["manufacturer", "family", "model", "version"]),
    ("endpoint-name", 0x03, &[]),
    ("product-instance-id", 0x04, &[]),
    (
        "function-block-info",
        0x11,
        &[
            "active",
            "number",
            "hint",
            "port",
            "direction",
            "first-group",
            "groups-spanned",
            "midi-ci-version",
            "streams",
        ],
    ),
    ("function-block-name", 0x12, &["block-number"]),
];

fn kind(name: &str) -> (&'static str, u16, &'static [&'static str]) {
    *KINDS.iter().find(|kind| kind.0 == name).expect("a kind")
}

pub fn kind_name(status: u16) -> &'static str {
    KINDS.iter().find(|kind| kind.1 == status).map_or("other", |kind| kind.0)
}

pub fn words(text: &str) -> Vec<u32> {
    text.split_whitespace().filter(|w| *w != "-").map(|w| u32::from_str_radix(w, 16).expect("a word")).collect()
}

fn bytes(hex: &str) -> Vec<u8> {
    let digits = hex.trim_matches('-').as_bytes();
    let pair = |at: usize| u8::from_str_radix(std::str::from_utf8(&digits[at..at + 2]).unwrap(), 16).expect("a byte");
    (0..digits.len()).step_by(2).map(pair).collect()
}

/// The answer after `=`.
fn verdict(text: &str) -> Verdict {
    let parts: Vec<&str> = text.split_whitespace().collect();
    match parts[0] {
        "refused" => Verdict::Refused(parts[1].parse().unwrap(), parts[2].parse().unwrap(), ""),
        _ => Verdict::Done,
    }
}

/// A line of the listing as an outcome.
fn listed(text: &str) -> Outcome {
    let mut out = Outcome { verdict: verdict(text), ..Outcome::default() };
    if out.verdict != Verdict::Done {
        return out;
    }
    let parts: Vec<&str> = text.split_whitespace().collect();
    let status = kind(parts[0]).1;
    out.numbers.push(status as u32);
    let has_text = matches!(status, 0x03 | 0x04 | 0x12);
    let last = parts.len() - has_text as usize;
    out.numbers.extend(parts[1..last].iter().map(|n| n.parse::<u32>().expect("a number")));
    if has_text {
        out.text = bytes(parts[last]);
    }
    out
}

/// What is told of each answer: the line, the question, the vector's answer and the side's.
pub type Tell<'a> = &'a mut dyn FnMut(&str, &Question, &Outcome, &Outcome);

pub fn reading(file: &str, side: &dyn Side, tell: Tell) {
    let mut got = Outcome::default();
    for line in file.lines().filter(|line| !line.starts_with('#')) {
        let (input, answer) = line.split_once('=').expect("an answer");
        let words = words(input);
        let question = Question::Read(&words);
        ask(side, &question, &mut got);
        tell(line, &question, &listed(answer), &got);
    }
}

pub fn steps(file: &str, side: &dyn Side, tell: Tell) {
    let mut got = Outcome::default();
    for line in file.lines().filter(|line| !line.starts_with('#')) {
        let (input, answer) = line.split_once('=').expect("an answer");
        let (input, place) = input.split_once('@').expect("a place");
        let words = words(input);
        let place: Vec<u32> = place.split_whitespace().map(|n| n.parse().unwrap()).collect();
        let answer: Vec<&str> = answer.split_whitespace().collect();
        let byte = if answer[0] == "end" { 256 } else { u32::from_str_radix(answer[0], 16).unwrap() };
        let numbers = vec![byte, answer[1].parse().unwrap(), answer[2].parse().unwrap()];
        let expected = Outcome { verdict: Verdict::Done, numbers, ..Outcome::default() };
        let question = Question::Step(&words, place[0], place[1]);
        ask(side, &question, &mut got);
        tell(line, &question, &expected, &got);
    }
}

/// The number of a value: choices are by name.
fn value(text: &str) -> u32 {
    match text {
        "undeclared" | "none" => 0,
        "receiver" | "unrestricted" | "input" => 1,
        "sender" | "restricted" | "output" => 2,
        "both" => 3,
        _ => text.parse().unwrap_or_else(|_| panic!("{}", text)),
    }
}

/// `set KIND FIELD NUMBERS =`, on these words.
fn field_question<'a>(parts: &[&str], words: &'a [u32]) -> Question<'a> {
    let (_, status, fields) = kind(parts[1]);
    let field = fields.iter().position(|f| *f == parts[2]).expect("a field");
    let mut v = [0; 4];
    for (to, from) in v.iter_mut().zip(parts[3..].iter().take_while(|p| **p != "=")) {
        *to = value(from);
    }
    Question::SetField(status, field, v, words)
}

/// A case goes on from the words of the plain reading, whose answers must be the vector's; so one parting brings no other.
/// `words` holds what the vector says of the whole buffer at its end.
pub fn settings(file: &str, side: &dyn Side, tell: Tell) {
    let mut buffer = Vec::new();
    let (mut got, mut expected) = (Outcome::default(), Outcome::default());
    let mut text;
    for line in file.lines().filter(|line| !line.starts_with('#')) {
        let parts: Vec<&str> = line.split_whitespace().collect();
        let question = match parts[0] {
            "buffer" => {
                buffer = words(&line[6..]);
                continue;
            }
            "as-found" => continue,
            "words" => {
                let now = Outcome { verdict: Verdict::Done, words: buffer.clone(), ..Outcome::default() };
                let expected = Outcome { words: words(&line[5..]), ..now.clone() };
                tell(line, &Question::Read(&buffer), &expected, &now);
                continue;
            }
            "fresh" => Question::Fresh(kind(parts[1]).1, &buffer),
            _ if parts[2] == "text" => {
                text = bytes(parts[3]);
                Question::SetText(kind(parts[1]).1, &buffer, &text)
            }
            _ => field_question(&parts, &buffer),
        };
        ask(&Plain, &question, &mut expected);
        let told = Outcome { verdict: verdict(line.split_once('=').unwrap().1), ..expected.clone() };
        if !told.equals(&expected) {
            tell(line, &question, &told, &expected);
        }
        ask(side, &question, &mut got);
        tell(line, &question, &expected, &got);
        if expected.verdict == Verdict::Done {
            buffer = expected.words.clone();
        }
    }
}
