//! Document 01 read plainly, as a third side: what the library must answer also where the Rust parts from it.

use crate::side::{needed, Answer, Side};
use oracle::oracle::{Message, Part, STATUSES};

pub struct Plain;

type Refusal = (u32, u32);

fn kind(word: u32) -> u16 {
    (word >> 16 & 0x3FF) as u16
}

fn format(word: u32) -> u32 {
    word >> 26 & 3
}

fn is_text_kind(status: u16) -> bool {
    matches!(status, 0x03 | 0x04 | 0x12)
}

fn bits(word: u32, low: u32, width: u32) -> u32 {
    word >> low & ((1 << width) - 1)
}

/// The fields of a fixed kind as (word, lowest bit, width), in 01's order; a 14-bit number has width 14 and two octets.
fn places(status: u16) -> &'static [(usize, u32, u32)] {
    match status {
        0x00 => &[(0, 8, 8), (0, 0, 8), (1, 0, 1), (1, 1, 1), (1, 2, 1), (1, 3, 1), (1, 4, 1)],
        0x01 => &[(0, 8, 8), (0, 0, 8), (1, 31, 1), (1, 9, 1), (1, 8, 1), (1, 1, 1), (1, 0, 1), (1, 24, 7)],
        0x02 => {
            &[(1, 16, 7), (1, 8, 7), (1, 0, 7), (2, 16, 14), (2, 0, 14), (3, 24, 7), (3, 16, 7), (3, 8, 7), (3, 0, 7)]
        }
        0x11 => &[(0, 15, 1), (0, 8, 7), (0, 4, 2), (0, 2, 2), (0, 0, 2), (1, 24, 4), (1, 16, 8), (1, 8, 8), (1, 0, 8)],
        0x12 => &[(0, 8, 8)],
        _ => &[],
    }
}

fn get(words: &[u32], (word, low, width): (usize, u32, u32)) -> u32 {
    match width {
        14 => bits(words[word], low + 8, 7) | bits(words[word], low, 7) << 7,
        _ => bits(words[word], low, width),
    }
}

fn put(words: &mut [u32], (word, low, width): (usize, u32, u32), v: u32) {
    if width == 14 {
        put(words, (word, low + 8, 7), v & 0x7F);
        put(words, (word, low, 7), v >> 7);
    } else {
        let mask = ((1u32 << width) - 1) << low;
        words[word] = words[word] & !mask | v << low;
    }
}

/// The octets of text in a packet, zeros too.
fn octets(packet: &[u32], offset: usize) -> impl Iterator<Item = u8> + '_ {
    (2 + offset..16).map(move |at| (packet[at / 4] >> (24 - at % 4 * 8)) as u8)
}

fn text_of(words: &[u32], text: &mut Vec<u8>) {
    text.clear();
    let offset = words.first().map_or(0, |w| (kind(*w) == 0x12) as usize);
    for packet in words.chunks_exact(4) {
        text.extend(octets(packet, offset).filter(|b| *b != 0));
    }
}

/// RFC 3629's grammar, row by row.
fn is_utf8(text: &[u8]) -> bool {
    let mut rest = text;
    while let Some(first) = rest.first() {
        let (length, low, high) = match first {
            0x00..=0x7F => (1, 0x80, 0xBF),
            0xC2..=0xDF => (2, 0x80, 0xBF),
            0xE0 => (3, 0xA0, 0xBF),
            0xE1..=0xEC | 0xEE..=0xEF => (3, 0x80, 0xBF),
            0xED => (3, 0x80, 0x9F),
            0xF0 => (4, 0x90, 0xBF),
            0xF1..=0xF3 => (4, 0x80, 0xBF),
            0xF4 => (4, 0x80, 0x8F),
            _ => return false,
        };
        if rest.len() < length || length > 1 && !(low..=high).contains(&rest[1]) {
            return false;
        }
        if rest[1..length].iter().skip(1).any(|b| b & 0xC0 != 0x80) {
            return false;
        }
        rest = &rest[length..];
    }
    true
}

fn due(packet: usize, count: usize) -> u32 {
    match (packet, count) {
        (0, 1) => 0,
        (0, _) => 1,
        (p, n) if p + 1 == n => 3,
        _ => 2,
    }
}

/// The first packet for which something is amiss.
fn first_with(words: &[u32], amiss: impl Fn(usize, u32) -> bool) -> Option<u32> {
    let mut heads = words.iter().step_by(4).enumerate();
    heads.find(|(at, head)| amiss(*at, **head)).map(|(at, _)| at as u32)
}

fn read(words: &[u32], text: &mut Vec<u8>) -> Result<Message, Refusal> {
    let count = words.len() / 4;
    if words.len() < 4 {
        return Err((1, 0));
    }
    if words.len() % 4 != 0 {
        return Err((2, 0));
    }
    if count > 64 {
        return Err((3, 0));
    }
    let refuse = |number: u32, at: Option<u32>| at.map_or(Ok(()), |place| Err((number, place)));
    let status = kind(words[0]);
    refuse(4, first_with(words, |_, head| head >> 28 != 15))?;
    refuse(5, Some(0).filter(|_| !STATUSES.contains(&status)))?;
    refuse(6, first_with(words, |_, head| kind(head) != status))?;
    refuse(7, Some(1).filter(|_| !is_text_kind(status) && count > 1))?;
    refuse(7, first_with(words, |at, head| format(head) != due(at, count)))?;
    refuse(8, first_with(words, |_, head| status == 0x12 && bits(head ^ words[0], 8, 8) != 0))?;
    refuse(9, Some(0).filter(|_| status == 0x11 && bits(words[0], 2, 2) == 3))?;
    refuse(10, Some(0).filter(|_| status == 0x11 && bits(words[0], 0, 2) == 0))?;
    if is_text_kind(status) {
        text_of(words, text);
        refuse(11, Some(0).filter(|_| !is_utf8(text)))?;
    }
    let mut message = Message { status, packets: count, count: 0, fields: [0; 9] };
    for place in places(status) {
        message.fields[message.count] = get(words, *place);
        message.count += 1;
    }
    Ok(message)
}

/// The chain rule of the walk at position 0: the message's packets.
fn framed(words: &[u32]) -> Result<usize, Refusal> {
    const SIZES: [usize; 16] = [1, 1, 1, 2, 2, 4, 1, 1, 2, 2, 2, 3, 3, 4, 4, 4];
    let first = *words.first().ok_or((1, 0))?;
    if first >> 28 != 15 {
        let missing = words.len() < SIZES[(first >> 28) as usize];
        return Err(if missing { (1, 0) } else { (4, 0) });
    }
    for at in 0..64 {
        let packet = words.get(at * 4..at * 4 + 4).ok_or((1, 0))?;
        let place = at as u32;
        if packet[0] >> 28 != 15 {
            return Err((4, place));
        }
        if kind(packet[0]) != kind(first) {
            return Err((6, place));
        }
        match (at, format(packet[0])) {
            (0, 0) => return Ok(1),
            (0, 1) => (),
            (0, _) => return Err((7, 0)),
            (_, 2) => (),
            (_, 3) => return Ok(at + 1),
            _ => return Err((7, place)),
        }
    }
    Err((3, 0))
}

fn first(words: &[u32], text: &mut Vec<u8>) -> Result<(Message, usize), Refusal> {
    let size = framed(words)? * 4;
    Ok((read(&words[..size], text)?, size))
}

/// The message of this kind that a setting acts on.
fn acted_on(words: &[u32], status: u16) -> Result<Message, Refusal> {
    let (message, _) = first(words, &mut Vec::new())?;
    if message.status == status {
        Ok(message)
    } else {
        Err((13, 0))
    }
}

fn fresh(status: u16, words: &mut [u32]) -> Result<(), Refusal> {
    if !STATUSES.contains(&status) {
        return Err((5, 0));
    }
    let whole = words.len() / 4 * 4;
    if whole == 0 {
        return Err((14, 0));
    }
    words[..whole].fill(0);
    words[0] = 0xF000_0000 | (status as u32) << 16 | if status == 0x11 { 3 } else { 0 };
    Ok(())
}

fn set_text(status: u16, words: &mut [u32], text: &[u8]) -> Result<(), Refusal> {
    let message = acted_on(words, status)?;
    if !is_text_kind(status) {
        return Err((13, 0));
    }
    if !is_utf8(text) {
        return Err((11, 0));
    }
    let offset = (status == 0x12) as usize;
    let capacity = 14 - offset;
    let needed = needed(status, text.len());
    if needed > 64 {
        return Err((3, 0));
    }
    let whole = words.len() / 4 * 4;
    if whole / 4 < needed {
        return Err((14, 0));
    }
    words[..whole].fill(0);
    for (at, packet) in words[..needed * 4].chunks_exact_mut(4).enumerate() {
        packet[0] = 0xF000_0000 | due(at, needed) << 26 | (status as u32) << 16 | message.fields[0] << 8;
    }
    for (at, byte) in text.iter().enumerate() {
        let octet = at / capacity * 16 + at % capacity + 2 + offset;
        words[octet / 4] |= (*byte as u32) << (24 - octet % 4 * 8);
    }
    Ok(())
}

/// The slots that a field takes: one, but three for the manufacturer and four for the version.
fn slots(status: u16, field: usize) -> Option<&'static [(usize, u32, u32)]> {
    let all = places(status);
    match (status, field) {
        (0x02, 0) => Some(&all[..3]),
        (0x02, 1) | (0x02, 2) => Some(&all[field + 2..field + 3]),
        (0x02, 3) => Some(&all[5..]),
        (0x02, _) => None,
        _ => all.get(field..field + 1),
    }
}

/// A choice comes as a code, and not every code that its bits hold names one.
fn names_no_choice(status: u16, field: usize, code: u32) -> bool {
    matches!((status, field, code), (0x11, 3, 3) | (0x11, 4, 0))
}

fn set_field(status: u16, field: usize, v: &[u32; 4], words: &mut [u32]) -> Result<(), Refusal> {
    let message = acted_on(words, status)?;
    let slots = slots(status, field).ok_or((13, 0))?;
    let is_too_large = slots.iter().zip(v).any(|((_, _, width), v)| *v >= 1 << width);
    if is_too_large || names_no_choice(status, field, v[0]) {
        return Err((12, 0));
    }
    for packet in words[..message.packets * 4].chunks_exact_mut(4) {
        for (slot, v) in slots.iter().zip(v) {
            put(packet, *slot, *v);
        }
    }
    Ok(())
}

/// The whole text of one message into a lent room, and its length, where it has one.
fn whole_text(words: &[u32], lent: &mut [u8]) -> (Result<(), Refusal>, usize) {
    let mut text = Vec::new();
    match read(words, &mut text) {
        Err(refusal) => (Err(refusal), 0),
        Ok(message) if !is_text_kind(message.status) => (Err((13, 0)), 0),
        Ok(_) if lent.len() < text.len() => (Err((14, 0)), text.len()),
        Ok(_) => {
            lent[..text.len()].copy_from_slice(&text);
            (Ok(()), text.len())
        }
    }
}

fn step(words: &[u32], packet: usize, byte: usize) -> (Option<u8>, usize, usize) {
    let offset = words.first().map_or(0, |w| (kind(*w) == 0x12) as usize);
    let count = words.len() / 4;
    if packet >= count || byte >= 14 - offset {
        return (None, packet, byte);
    }
    let (mut p, mut b) = (packet, byte);
    while p < count {
        let found = octets(&words[p * 4..p * 4 + 4], offset).nth(b).unwrap_or(0);
        b += 1;
        if b == 14 - offset {
            p += 1;
            b = 0;
        }
        if found != 0 {
            return (Some(found), p, b);
        }
    }
    (None, count, 0)
}

fn answer<T>(result: Result<T, Refusal>) -> Answer<T> {
    match result {
        Ok(value) => Answer::Done(value),
        Err((number, place)) => Answer::Refused(number, place, ""),
    }
}

fn width(of: Part) -> (u32, u32) {
    match of {
        Part::Bit => (1, 32),
        Part::Crumb => (2, 16),
        Part::Nibble => (4, 8),
        Part::Septet => (7, 4),
        Part::Octet => (8, 4),
        Part::Word => (16, 2),
    }
}

impl Side for Plain {
    fn packet(&self, words: &[u32]) -> Answer<([u32; 4], u8)> {
        let mut four = [0; 4];
        for (to, from) in four.iter_mut().zip(words) {
            *to = *from;
        }
        match words.first() {
            None => Answer::Refused(1, 0, ""),
            Some(head) if head >> 28 != 15 => Answer::Refused(4, 0, ""),
            Some(head) => Answer::Done((four, format(*head) as u8)),
        }
    }

    fn read(&self, words: &[u32], text: &mut Vec<u8>) -> Answer<Message> {
        answer(read(words, text))
    }

    fn first(&self, words: &[u32], text: &mut Vec<u8>) -> Answer<(Message, usize)> {
        answer(first(words, text))
    }

    fn size(&self, words: &[u32]) -> Answer<usize> {
        let ended = words.chunks_exact(4).position(|p| matches!(format(p[0]), 0 | 3));
        ended.map_or(Answer::Refused(1, 0, ""), |at| Answer::Done(at * 4 + 4))
    }

    fn text(&self, words: &[u32], text: &mut Vec<u8>) -> Answer<()> {
        text_of(words, text);
        Answer::Done(())
    }

    fn step(&self, words: &[u32], packet: u32, byte: u32) -> Answer<(Option<u8>, u32, u32)> {
        let (next, packet, byte) = step(words, packet as usize, byte as usize);
        Answer::Done((next, packet as u32, byte as u32))
    }

    fn whole_text(&self, words: &[u32], lent: &mut [u8]) -> (Answer<()>, usize) {
        let (result, length) = whole_text(words, lent);
        (answer(result), length)
    }

    fn fresh(&self, status: u16, words: &mut [u32]) -> Answer<()> {
        answer(fresh(status, words))
    }

    fn set_text(&self, status: u16, words: &mut [u32], text: &[u8]) -> Answer<()> {
        answer(set_text(status, words, text))
    }

    fn set_field(&self, status: u16, field: usize, v: &[u32; 4], words: &mut [u32]) -> Answer<()> {
        answer(set_field(status, field, v, words))
    }

    /// An index out of range reads 0, as docs/DIFFERENCES.md says.
    fn part(&self, of: Part, word: u32, index: usize) -> Answer<u32> {
        let (width, count) = width(of);
        let step = 32 / count;
        Answer::Done(if index < count as usize { bits(word, 32 - step * (index as u32 + 1), width) } else { 0 })
    }

    /// An index out of range or a value too large changes nothing.
    fn set_part(&self, of: Part, word: u32, index: usize, v: u32) -> Answer<u32> {
        let (width, count) = width(of);
        if index >= count as usize || v >= 1 << width {
            return Answer::Done(word);
        }
        let mut words = [word];
        put(&mut words, (0, 32 - 32 / count * (index as u32 + 1), width), v);
        Answer::Done(words[0])
    }
}
