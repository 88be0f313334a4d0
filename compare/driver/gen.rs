//! Inputs: short ones exhaustively, then random ones around each boundary and damaged copies of good ones. The same seed
//! gives the same inputs on every machine.

use crate::side::Question;
use oracle::oracle::{PARTS, STATUSES};

/// xorshift64*.
pub struct Random(u64);

impl Random {
    pub fn new(seed: u64) -> Random {
        Random(seed ^ 0x9E37_79B9_7F4A_7C15)
    }

    pub fn next(&mut self) -> u32 {
        self.0 ^= self.0 >> 12;
        self.0 ^= self.0 << 25;
        self.0 ^= self.0 >> 27;
        (self.0.wrapping_mul(0x2545_F491_4F6C_DD1D) >> 32) as u32
    }

    pub fn below(&mut self, n: usize) -> usize {
        self.next() as usize % n
    }

    pub fn pick<T: Copy>(&mut self, of: &[T]) -> T {
        of[self.below(of.len())]
    }

    fn one_in(&mut self, n: usize) -> bool {
        self.below(n) == 0
    }
}

type Ask<'a> = &'a mut dyn FnMut(&Question);

const GOOD: [&[&[u8]]; 5] = [
    &[b"a", b"A", b" ", b"~", b"\x01", b"\x7F"],
    &[b"\xC2\x80", b"\xC3\xA9", b"\xDF\xBF"],
    &[b"\xE0\xA0\x80", b"\xE2\x82\xAC", b"\xE3\x81\x82", b"\xED\x9F\xBF", b"\xEE\x80\x80", b"\xEF\xBF\xBF"],
    &[b"\xF0\x90\x80\x80", b"\xF1\x80\x80\x80", b"\xF3\xBF\xBF\xBF", b"\xF4\x8F\xBF\xBF"],
    &[b"a", b"\xC3\xA9", b"\xE2\x82\xAC", b"\xF0\x9F\x8E\xB9", b"\x00"],
];

const BAD: [&[u8]; 16] = [
    b"\x80",
    b"\xBF",
    b"\xC0\x80",
    b"\xC1\xBF",
    b"\xC3",
    b"\xC3\x28",
    b"\xC3\x00\xA9",
    b"\xE0\x9F\xBF",
    b"\xE2\x82",
    b"\xED\xA0\x80",
    b"\xED\xBF\xBF",
    b"\xF0\x8F\xBF\xBF",
    b"\xF4\x90\x80\x80",
    b"\xF5\x80\x80\x80",
    b"\xFF",
    b"\xF0\x9F\x8E",
];

const EDGES: [u8; 24] = [
    0x00, 0x01, 0x20, 0x7F, 0x80, 0x8F, 0x90, 0x9F, 0xA0, 0xBF, 0xC0, 0xC1, 0xC2, 0xDF, 0xE0, 0xED, 0xEE, 0xEF, 0xF0,
    0xF1, 0xF4, 0xF5, 0xF8, 0xFF,
];

/// Text of about so many bytes: whole characters, or now and then a bad one.
pub fn text(random: &mut Random, bytes: usize, out: &mut Vec<u8>) {
    out.clear();
    let from = random.pick(&GOOD);
    let bad_at = if random.one_in(6) { random.below(bytes + 1) } else { usize::MAX };
    let mut bad = false;
    while out.len() < bytes {
        if out.len() >= bad_at && !bad {
            out.extend_from_slice(random.pick(&BAD));
            bad = true;
        }
        let character = random.pick(from);
        if out.len() + character.len() <= bytes {
            out.extend_from_slice(character);
        } else {
            out.push(b'z');
        }
    }
}

/// Packets: mostly few, now and then about the most.
fn packets(random: &mut Random) -> usize {
    match random.below(40) {
        0 => random.pick(&[31, 32, 33, 62, 63, 64, 65, 66]),
        1..=8 => 5 + random.below(8),
        _ => 1 + random.below(4),
    }
}

fn capacity(status: u16) -> usize {
    14 - (status == 0x12) as usize
}

/// Lays text into packets, zeros in the last.
pub fn lay(status: u16, number: u32, text: &[u8], words: &mut Vec<u32>) {
    let offset = 14 - capacity(status);
    let count = ((text.len() + capacity(status) - 1) / capacity(status)).max(1);
    words.clear();
    words.resize(count * 4, 0);
    for at in 0..count {
        let format = if count == 1 {
            0
        } else if at == 0 {
            1
        } else if at + 1 < count {
            2
        } else {
            3
        };
        words[at * 4] = 0xF << 28 | format << 26 | (status as u32) << 16;
        if status == 0x12 {
            words[at * 4] |= number << 8;
        }
    }
    for (at, byte) in text.iter().enumerate() {
        let octet = at / capacity(status) * 16 + at % capacity(status) + 2 + offset;
        words[octet / 4] |= (*byte as u32) << (24 - octet % 4 * 8);
    }
}

/// A message of a kind, nearly always a good one.
fn message(random: &mut Random, status: u16, bytes: &mut Vec<u8>, words: &mut Vec<u32>) {
    if matches!(status, 0x03 | 0x04 | 0x12) {
        let most = packets(random) * capacity(status);
        let length = most.saturating_sub(random.pick(&[0, 0, 1, 2, 5, 12, 13, 14]));
        text(random, length, bytes);
        let number = random.next() & 0xFF;
        return lay(status, number, bytes, words);
    }
    words.clear();
    words.extend([random.next(), random.next(), random.next(), random.next()]);
    words[0] = words[0] & 0xFFFF | 0xF << 28 | (status as u32) << 16;
    if status == 0x11 && !random.one_in(4) {
        words[0] = words[0] & !0xF | random.pick(&[0, 4, 8]) | 1 + random.next() % 3;
    }
    if random.one_in(24) {
        let first = [words[0], words[1], words[2], words[3]];
        for at in 1..=1 + random.below(3) {
            words[at * 4 - 4] = words[at * 4 - 4] & !(3 << 26) | if at == 1 { 1 } else { 2 } << 26;
            words.extend(first);
            words[at * 4] |= 3 << 26;
        }
    }
}

fn damage_head(random: &mut Random, words: &mut [u32]) {
    let at = random.below((words.len() + 3) / 4) * 4;
    match random.below(4) {
        0 => words[at] = words[at] & !(0xF << 28) | random.next() & 0xF << 28,
        1 => words[at] = words[at] & !(3 << 26) | random.next() & 3 << 26,
        2 => words[at] = words[at] & !(0x3FF << 16) | (random.pick(&STATUSES) as u32) << 16,
        _ => words[at] = words[at] & !0xFF00 | random.next() & 0xFF00,
    }
}

fn damage_length(random: &mut Random, words: &mut Vec<u32>) {
    match random.below(5) {
        0 => words.truncate(words.len().saturating_sub(1 + random.below(5))),
        1 => words.resize(words.len() + 1 + random.below(5), 0),
        2 => (0..1 + random.below(5)).for_each(|_| words.push(random.next())),
        3 => {
            let head = words[0];
            words.push(head);
        }
        _ => {
            let from = random.below(words.len() / 4 + 1) * 4;
            let packet: Vec<u32> = words[from..].iter().take(4).copied().collect();
            words.extend(packet);
        }
    }
}

/// Damages a message in one way.
fn damage(random: &mut Random, words: &mut Vec<u32>) {
    if words.is_empty() {
        return;
    }
    match random.below(6) {
        0 => {
            let at = random.below(words.len());
            words[at] ^= 1 << random.below(32);
        }
        1 | 2 => damage_head(random, words),
        3 => damage_length(random, words),
        4 => {
            let at = random.below(words.len() * 4);
            let low = 24 - at % 4 * 8;
            words[at / 4] = words[at / 4] & !(0xFF << low) | (random.pick(&EDGES) as u32) << low;
        }
        _ => {
            let from = random.below(words.len() / 4 + 1) * 4;
            let to = (from + 4).min(words.len());
            words.drain(from..to);
        }
    }
}

/// The smallest inputs of the classes that docs/DIFFERENCES.md lists.
fn smallest(ask: Ask) {
    let one = [0xF003_0000u32, 0, 0, 0, 0];
    let block = [0xF012_0500u32, 0, 0, 0, 0, 0, 0, 0];
    ask(&Question::SetText(0x12, &block, b"aaaaaaaaaaaaaa"));
    ask(&Question::Grow(0x12, &block[..4], b"aaaaaaaaaaaaaa"));
    ask(&Question::SetField(0x12, 0, [5, 0, 0, 0], &[0xF012_0000, 0, 0, 0, 0, 0, 0, 0]));
    ask(&Question::Read(&one));
    ask(&Question::Read(&[0xF000_0000, 0, 0, 0, 0]));
    ask(&Question::Read(&[0xF403_0000, 0, 0, 0, 0xFC03_0000]));
    ask(&Question::Read(&[0xF403_0000, 0, 0, 0, 0xFC00_0000]));
    ask(&Question::Read(&[0xF400_0000, 0, 0, 0, 0xFC00_0000, 0, 0, 0]));
    ask(&Question::Read(&[0xF000_0000, 0, 0, 0, 0, 0, 0, 0]));
    ask(&Question::Read(&[0xF003_4100, 0, 0, 0, 0x0003_4200, 0, 0, 0]));
    ask(&Question::Read(&[0xF005_0000, 0, 0, 0]));
    ask(&Question::Size(&[]));
    ask(&Question::Size(&[0xF403_0000, 0, 0, 0]));
    ask(&Question::Step(&[0, 0, 0, 0], 0, 14));
    ask(&Question::Step(&[0xF003_0000, 0, 0, 0, 0x1003_4100, 0, 0, 0], 0, 14));
    ask(&Question::Part(PARTS[0], 0, 32));
    ask(&Question::SetPart(PARTS[0], 0, 0, 2));
    let mut long = vec![0; 65 * 4];
    for at in 0..65 {
        long[at * 4] = 0xF803_0000;
    }
    long[0] = 0xF403_0000;
    long[64 * 4] = 0xFC03_0000;
    ask(&Question::Read(&long));
    ask(&Question::First(&long));
    ask(&Question::SetText(0x03, &long, &[b'a'; 14 * 64 + 1]));
}

/// Every upper half of a first word, and every lower half for each kind.
fn heads(ask: Ask) {
    for high in 0..0x1_0000u32 {
        let words = [high << 16 | 3, 0, 0, 0];
        ask(&Question::Read(&words));
        ask(&Question::First(&words));
        ask(&Question::Packet(&words));
        ask(&Question::Size(&words));
    }
    for status in STATUSES {
        for low in 0..0x1_0000u32 {
            ask(&Question::Read(&[0xF000_0000 | (status as u32) << 16 | low, 0, 0, 0]));
        }
    }
}

/// Every length up to nine words of a few heads.
fn lengths(ask: Ask) {
    for head in [0xF003_4100u32, 0xF403_4141, 0xF012_0541, 0xF412_0541, 0xF011_0003, 0xF411_0003, 0x1000_0000, 0] {
        for end in [0, 0xF003_4100, 0xFC03_4100, 0xFC12_0500, 0xFC11_0003, 0x0003_4200] {
            let words = [head, 0, 0, 0, end, 0, 0, 0, 0];
            for length in 0..=9 {
                ask(&Question::Packet(&words[..length]));
                ask(&Question::Read(&words[..length]));
                ask(&Question::First(&words[..length]));
                ask(&Question::Size(&words[..length]));
                ask(&Question::Text(&words[..length]));
            }
        }
    }
}

/// Every text of two bytes, of three that starts as a character of three, and of four at the edges, for both offsets.
fn texts(ask: Ask) {
    let mut words = Vec::new();
    for status in [0x03, 0x12] {
        for two in 0..0x1_0000u32 {
            lay(status, 5, &two.to_be_bytes()[2..], &mut words);
            ask(&Question::Read(&words));
            ask(&Question::Text(&words));
        }
        for first in 0xF0..=0xF8u8 {
            for second in 0..=0xFFu8 {
                for rest in 0..36 {
                    let text = [first, second, EDGES[4 + rest / 6], EDGES[4 + rest % 6]];
                    lay(status, 5, &text, &mut words);
                    ask(&Question::Read(&words));
                }
            }
        }
    }
    for three in 0xE0_0000..0xF0_0000u32 {
        lay(0x04, 0, &three.to_be_bytes()[1..], &mut words);
        ask(&Question::Read(&words));
    }
}

/// Two and three packets with every mix of type, format and status, and up to three words after them.
fn shapes(ask: Ask) {
    for status in STATUSES {
        for count in 2..=3usize {
            for mix in 0..16u32.pow(count as u32) {
                let mut words = vec![0; count * 4 + 3];
                for at in 0..count {
                    let one = mix >> (at * 4);
                    let kind = status as u32 ^ (one >> 3 & 1);
                    words[at * 4] = (0xF - (one & 1)) << 28 | (one >> 1 & 3) << 26 | kind << 16 | 0x101;
                }
                for length in count * 4..=count * 4 + 3 {
                    ask(&Question::Read(&words[..length]));
                }
                ask(&Question::First(&words));
                ask(&Question::Size(&words));
            }
        }
    }
}

fn parts(random: &mut Random, ask: Ask) {
    for part in PARTS {
        for index in (0..=33).chain([100, u32::MAX as usize]) {
            for _ in 0..20 {
                let word = random.next();
                ask(&Question::Part(part, word, index));
                let wide = random.next() >> random.below(32);
                for v in [0, 1, 2, 3, 4, 15, 16, 127, 128, 255, 256, 65_535, 65_536, wide] {
                    ask(&Question::SetPart(part, word, index, v));
                }
            }
        }
    }
}

/// How many fields can be set; a text kind has none, and is asked for one all the same.
fn field_count(status: u16) -> usize {
    match status {
        0x00 => 7,
        0x01 => 8,
        0x02 => 4,
        0x11 => 9,
        _ => 1,
    }
}

/// Every field of every kind with every small number, on fresh words and on random ones.
fn fields(random: &mut Random, ask: Ask) {
    let (mut bytes, mut words) = (Vec::new(), Vec::new());
    for status in STATUSES {
        for field in 0..10 {
            for v in (0..300).chain(16_380..16_388).chain([32_767, 65_535, 65_536, u32::MAX]) {
                message(random, status, &mut bytes, &mut words);
                let others = [v, random.next() & 0x7F, random.next() & 0x7F, random.next() & 0x7F];
                ask(&Question::SetField(status, field, others, &words));
                words.extend([0; 6]);
                ask(&Question::SetField(status, field, [random.next() & 0x7F, v, 127, 0], &words));
            }
        }
    }
}

/// The three choices by each code, with one that is no choice among them: on a block info, on a bad one, on another kind, on
/// another type, and on no words.
fn choices(ask: Ask) {
    let on: [&[u32]; 5] =
        [&[0xF011_0003, 0, 0, 0], &[0xF011_000C, 0, 0, 0], &[0xF003_0000, 0, 0, 0], &[0x1000_0000], &[]];
    for words in on {
        for field in 2..=4 {
            for code in (0..6).chain([u32::MAX]) {
                ask(&Question::SetField(0x11, field, [code, 0, 0, 0], words));
            }
        }
    }
}

/// Every length of text for each text kind: in the room that it needs, in a packet less, and in 66 packets.
fn text_lengths(random: &mut Random, ask: Ask) {
    let (mut bytes, mut words) = (Vec::new(), Vec::new());
    for status in [0x03, 0x04, 0x12] {
        for length in 0..=925 {
            text(random, length, &mut bytes);
            let needed = (length + capacity(status) - 1) / capacity(status);
            for count in [needed, needed.saturating_sub(1), 66] {
                lay(status, 5, b"name", &mut words);
                words.resize(count * 4 + random.below(2), 0x1234_5678);
                ask(&Question::SetText(status, &words, &bytes));
            }
            lay(status, 5, b"a name of more than one packet", &mut words);
            ask(&Question::Grow(status, &words, &bytes));
        }
    }
}

fn random_reads(random: &mut Random, bytes: &mut Vec<u8>, words: &mut Vec<u32>, ask: Ask) {
    let status = random.pick(&STATUSES);
    message(random, status, bytes, words);
    ask(&Question::Read(words));
    for _ in 0..random.below(4) {
        damage(random, words);
    }
    ask(&Question::Read(words));
    ask(&Question::First(words));
    ask(&Question::Text(words));
    ask(&Question::Size(words));
    ask(&Question::Packet(words));
    for _ in 0..3 {
        let packet = random.below(words.len() / 4 + 2) as u32;
        ask(&Question::Step(words, packet, random.below(16) as u32));
    }
}

/// A buffer with a message at its start and whatever after it.
fn buffer(random: &mut Random, status: u16, bytes: &mut Vec<u8>, words: &mut Vec<u32>) {
    message(random, status, bytes, words);
    let more = random.pick(&[0, 0, 1, 3, 4, 8, 9, 40]);
    let garbage = random.one_in(2);
    (0..more).for_each(|_| words.push(if garbage { random.next() } else { 0 }));
    if random.one_in(4) {
        damage(random, words);
    }
}

fn random_settings(random: &mut Random, bytes: &mut Vec<u8>, words: &mut Vec<u32>, ask: Ask) {
    let status = random.pick(&STATUSES);
    let on = if random.one_in(8) { random.pick(&STATUSES) } else { status };
    buffer(random, status, bytes, words);
    let wide = random.next() >> random.below(32);
    let septet = random.next() >> 25;
    let v = [random.next() >> (24 + random.below(7)), random.next() >> 25, septet, random.next() >> 25];
    let of_kind = random.below(field_count(on));
    let field = if random.one_in(16) { random.below(10) } else { of_kind };
    ask(&Question::SetField(on, field, v, words));
    ask(&Question::SetField(on, field, [wide, septet, v[0], v[1]], words));
    ask(&Question::Fresh(on, words));
    if matches!(on, 0x03 | 0x04 | 0x12) {
        let length = packets(random) * capacity(on) - random.below(14);
        text(random, length, bytes);
        ask(&Question::SetText(on, words, bytes));
        let size = words.chunks_exact(4).position(|p| matches!(p[0] >> 26 & 3, 0 | 3)).map_or(0, |at| at * 4 + 4);
        ask(&Question::Grow(on, &words[..size], bytes));
    }
}

/// Random questions alone, until so many were asked.
pub fn random(random: &mut Random, count: u64, ask: Ask) {
    let (mut bytes, mut words) = (Vec::new(), Vec::new());
    let mut done = 0;
    while done < count {
        let mut counting = |question: &Question| {
            done += 1;
            ask(question)
        };
        random_reads(random, &mut bytes, &mut words, &mut counting);
        random_settings(random, &mut bytes, &mut words, &mut counting);
    }
}

/// Asks until so many questions were asked.
pub fn run(seed: u64, count: u64, ask: Ask) {
    let mut asked = 0;
    let mut counting = |question: &Question| {
        asked += 1;
        ask(question)
    };
    let mut random = Random::new(seed);
    smallest(&mut counting);
    heads(&mut counting);
    lengths(&mut counting);
    texts(&mut counting);
    shapes(&mut counting);
    parts(&mut random, &mut counting);
    fields(&mut random, &mut counting);
    choices(&mut counting);
    text_lengths(&mut random, &mut counting);
    self::random(&mut random, count.saturating_sub(asked), ask);
}
