//! The rows of the Rust crate: its calls as its user makes them, each beside the C call and the given Rust.

use crate::c_face::*;
use crate::captures::{endpoint_name, name, text, ASCII, BLOCK_INFO};
use crate::{keep, read_by_c, Call, Case};
use frayedbin::{Direction, EndpointName, FunctionBlockInfo, Midi1Port, UiHint};
use oracle::timed as rust;

/// The most that the ratio of a call to the C call is wanted to be.
pub const MOST_TO_C: f64 = 1.3;

/// The most that the ratio of `name()` to the Rust's is wanted to be.
const MOST_OF_NAME: f64 = 0.5;

/// A name of four packets with three bytes to spare.
const NAME_BYTES: usize = 53;

/// A row: the C call, the given Rust and the crate's own call.
fn row(name: &str, wanted: Option<f64>, c: Call, rust: Call, own: Call) -> Case {
    Case { name: name.to_string(), wanted, words: None, calls: vec![c, rust, own] }
}

/// A timed setting says only whether it was made. That the crate makes it right is seen here, once, from its words.
fn set_name() -> Case {
    let words = endpoint_name(1, ASCII);
    let of = text(ASCII, 14);
    let (mut by_c, mut by_rust) = (words.clone(), words.clone());
    let mut message = EndpointName::new([0; 4]).ok().expect("a fresh name");
    assert!(message.set_name(&of[..]).is_ok() && message.data() == words);
    let (of_rust, own) = (of.clone(), of.clone());
    row(
        "set_name of an endpoint name, 1 ASCII, over itself",
        None,
        Box::new(move || {
            let (at, length, of) = (by_c.as_mut_ptr(), by_c.len(), keep(&of[..]));
            let a = unsafe { frayedbin_endpoint_name_set_name(at, length, of.as_ptr(), of.len()) };
            keep((a.refusal == 0) as u32)
        }),
        Box::new(move || keep(rust::set_endpoint_name(&mut by_rust, keep(&of_rust[..])) as u32)),
        Box::new(move || keep(message.set_name(keep(&own[..])).is_ok() as u32)),
    )
}

fn set_active() -> Case {
    let (mut by_c, mut by_rust) = (BLOCK_INFO, BLOCK_INFO);
    let mut message = FunctionBlockInfo::new([0; 4]).ok().expect("a fresh block info");
    assert!(message.set_active(true).is_ok() && message.data() == [0xF011_8003, 0, 0, 0]);
    row(
        "set_active of a block info",
        None,
        Box::new(move || {
            let a = unsafe { frayedbin_function_block_info_set_active(by_c.as_mut_ptr(), by_c.len(), keep(true)) };
            keep((a.refusal == 0) as u32)
        }),
        Box::new(move || {
            rust::set_active(&mut by_rust, keep(true));
            1
        }),
        Box::new(move || keep(message.set_active(keep(true)).is_ok() as u32)),
    )
}

fn read_name() -> Case {
    let words = endpoint_name(1, ASCII);
    let (by_rust, own) = (words.clone(), words.clone());
    row(
        "read an endpoint name, 1 ASCII",
        None,
        Box::new(move || keep(read_by_c(keep(&words[..])))),
        Box::new(move || keep(rust::read(keep(&by_rust[..])).unwrap_or(0))),
        Box::new(move || {
            let message = EndpointName::read(keep(&own[..]));
            keep(message.map_or(0, |message| 0x03 + message.data().len() as u32 / 4))
        }),
    )
}

/// The sum of all that a block info says.
fn sum(info: &FunctionBlockInfo<&[u32]>) -> u32 {
    let hint = match info.ui_hint() {
        UiHint::Undeclared => 0,
        UiHint::Receiver => 1,
        UiHint::Sender => 2,
        UiHint::SenderReceiver => 3,
    };
    let port = match info.midi1_port() {
        None => 0,
        Some(Midi1Port::DontRestrictBandwidth) => 1,
        Some(Midi1Port::RestrictBandwidth) => 2,
    };
    let direction = match info.direction() {
        Direction::Input => 1,
        Direction::Output => 2,
        Direction::Bidirectional => 3,
    };
    let bytes = [
        info.active() as u8,
        info.function_block_number(),
        info.first_group(),
        info.number_of_groups_spanned(),
        info.midi_ci_version(),
        info.max_number_of_midi_ci_streams(),
    ];
    bytes.iter().fold(0x11 + 1 + hint + port + direction, |sum, byte| sum + *byte as u32)
}

fn read_info() -> Case {
    row(
        "read a block info",
        None,
        Box::new(|| keep(read_by_c(keep(&BLOCK_INFO[..])))),
        Box::new(|| keep(rust::read(keep(&BLOCK_INFO[..])).unwrap_or(0))),
        Box::new(|| keep(FunctionBlockInfo::read(keep(&BLOCK_INFO[..])).map_or(0, |info| sum(&info)))),
    )
}

/// Length and last byte of a text.
fn ends(text: &[u8]) -> u32 {
    text.len() as u32 * 256 + text[text.len() - 1] as u32
}

fn name_as_string() -> Case {
    let of = text(ASCII, NAME_BYTES);
    let words = name(0x03, 0, 4, &of);
    let mut out = vec![0; 4 * 14];
    let message = EndpointName::read(words.clone()).ok().expect("a name");
    assert!(message.name() == of && rust::name(&words) == of);
    let by_rust = words.clone();
    row(
        &format!("name() of {} bytes, a String", NAME_BYTES),
        Some(MOST_OF_NAME),
        Box::new(move || {
            let words = keep(&words[..]);
            let a = unsafe { frayedbin_text(words.as_ptr(), words.len(), out.as_mut_ptr(), out.len()) };
            keep(if a.refusal == 0 { ends(&out[..a.length]) } else { 0 })
        }),
        Box::new(move || keep(ends(rust::name(keep(&by_rust[..])).as_bytes()))),
        Box::new(move || keep(ends(message.name().as_bytes()))),
    )
}

pub(crate) fn all() -> Vec<Case> {
    vec![set_name(), set_active(), read_name(), read_info(), name_as_string()]
}
