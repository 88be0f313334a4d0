//! Words for the benchmark: names, and captures to walk and to list.

/// The most words that `dump` lists.
pub const MOST: usize = 8192;

pub const ASCII: &str = "Frayedbin Bench Probe, port 1 of 2; ";
/// Three bytes a character.
pub const JAPANESE: &str = "電子楽器のシンセサイザーとけんばん";
/// Two bytes a character.
pub const GREEK: &str = "ΗλεκτρικάΠλήκτραΚαιΣυνθεσάιζερ";
/// Four bytes a character.
pub const SYMBOLS: &str = "🎹🎸𝄞🎺🎻𝄢🥁";

/// So many bytes of a text, over and over, or the whole characters that fit.
pub fn text(of: &str, bytes: usize) -> String {
    let mut all = String::new();
    for c in of.chars().cycle() {
        if all.len() + c.len_utf8() > bytes {
            return all;
        }
        all.push(c);
    }
    all
}

/// A message of so many packets with a text, by document 01.
pub fn name(status: u32, block: u32, packets: usize, text: &str) -> Vec<u32> {
    let start = if status == 0x12 { 3 } else { 2 };
    let mut octets = vec![0u8; packets * 16];
    for packet in 0..packets {
        let format = match (packets, packet) {
            (1, _) => 0,
            (_, 0) => 1,
            (n, p) if p + 1 == n => 3,
            _ => 2,
        };
        let head = 0xF000_0000u32 | format << 26 | status << 16 | block << 8;
        octets[packet * 16..packet * 16 + 4].copy_from_slice(&head.to_be_bytes());
    }
    for (at, byte) in text.bytes().enumerate() {
        let capacity = 16 - start;
        octets[at / capacity * 16 + start + at % capacity] = byte;
    }
    octets.chunks(4).map(|four| u32::from_be_bytes([four[0], four[1], four[2], four[3]])).collect()
}

pub fn endpoint_name(packets: usize, of: &str) -> Vec<u32> {
    name(0x03, 0, packets, &text(of, packets * 14))
}

pub fn block_name(packets: usize, of: &str) -> Vec<u32> {
    name(0x12, 5, packets, &text(of, packets * 13))
}

pub const BLOCK_INFO: [u32; 4] = [0xF011_8533, 0x0301_0204, 0, 0];

/// Eight words of a mixed capture: units of several kinds in turn, so that any length has the same mix.
fn mixed(unit: usize) -> Vec<u32> {
    let low = unit as u32 & 0x7F;
    match unit % 5 {
        0 => [0xF000_0101, 0x1F, 0, 0, 0xF001_0101, 0x8200_0303, 0, 0].to_vec(),
        1 => endpoint_name(2, ASCII),
        2 => [BLOCK_INFO, [0x10F8_0000, 0x2090_4000 | low, 0x4090_4000 | low << 8, 0xFFFF_0000]].concat(),
        3 => [name(0x12, low, 1, &text(JAPANESE, 13)), vec![0xF002_0000, 0x7D_0102, 0x0102_0304, low]].concat(),
        _ => [0xF004_4642, 0x2D30_3030, 0x3100_0000, 0, 0xF011_000C | low << 8, 0, 0, 0].to_vec(),
    }
}

/// One message of a capture, by its number, and its words.
fn message(capture: &str, at: usize) -> Vec<u32> {
    let low = at as u32;
    match capture {
        "mixed" => mixed(at),
        "others of one word" => vec![0x7000_0000 | low],
        "others of two words" => vec![0xA000_0000 | low, low],
        "discoveries" => vec![0xF000_FFFF, 0x1F, 0, low],
        "device identities" => vec![0xF002_0000, 0x7F_7F7F, 0x7F7F_7F7F, 0x7F7F_7F00 | low % 28 + 100],
        "one device identity again and again" => vec![0xF002_0000, 0x7F_7F7F, 0x7F7F_7F7F, 0x7F7F_7F7F],
        "block infos" => vec![0xF011_FF3B, 0x0FFF_FF00 | low % 156 + 100, 0, low],
        "names of 1 packet" => name(0x03, 0, 1, &format!("{:014}", low)),
        "block names of 1 packet" => name(0x12, 255, 1, &format!("{:013}", low)),
        "names of 64 packets" => endpoint_name(64, ASCII),
        "Japanese names of 64 packets" => endpoint_name(64, JAPANESE),
        "names that are not UTF-8" => vec![0xF003_C328, low, 0, 0],
        "starts with no end" => vec![0xF403_4142, 0x4344_4546, low, 0],
        "one start, then 64 continues" => {
            vec![if at % 65 == 0 { 0xF403_4142 } else { 0xF803_4142 }, 0x4344_4546, low, 0]
        }
        _ => Vec::new(),
    }
}

/// Of the last the lines of `od` are all alike.
pub const CAPTURES: [&str; 14] = [
    "mixed",
    "others of one word",
    "others of two words",
    "discoveries",
    "device identities",
    "block infos",
    "names of 1 packet",
    "block names of 1 packet",
    "names of 64 packets",
    "Japanese names of 64 packets",
    "names that are not UTF-8",
    "starts with no end",
    "one start, then 64 continues",
    "one device identity again and again",
];

/// So many words of a capture.
pub fn capture(of: &str, words: usize) -> Vec<u32> {
    let mut all = Vec::new();
    let mut at = 0;
    while all.len() < words {
        all.extend_from_slice(&message(of, at));
        at += 1;
    }
    all.truncate(words);
    all
}
