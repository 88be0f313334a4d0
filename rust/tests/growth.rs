//! A block name that grows and shrinks has its number in each of its packets and none after.

use frayedbin::FunctionBlockName;

/// Octet 2 of each packet's first word, and the format with the type.
fn heads(words: &[u32]) -> Vec<(u32, u32)> {
    words
        .chunks(4)
        .map(|packet| (packet[0] >> 24, packet[0] >> 8 & 0xFF))
        .collect()
}

#[test]
fn the_number_goes_into_added_packets() {
    let mut name = FunctionBlockName::new([0; 16]).unwrap();
    name.set_function_block(5).unwrap();
    assert_eq!(
        heads(&name.into_buffer()),
        [(0xF0, 5), (0, 0), (0, 0), (0, 0)]
    );
    name.set_name("a".repeat(14)).unwrap();
    assert_eq!(
        heads(&name.into_buffer()),
        [(0xF4, 5), (0xFC, 5), (0, 0), (0, 0)]
    );
    name.set_name("a".repeat(52)).unwrap();
    assert_eq!(
        heads(&name.into_buffer()),
        [(0xF4, 5), (0xF8, 5), (0xF8, 5), (0xFC, 5)]
    );
    name.set_function_block(255).unwrap();
    assert_eq!(
        heads(&name.into_buffer()),
        [(0xF4, 255), (0xF8, 255), (0xF8, 255), (0xFC, 255)]
    );
    assert_eq!(name.name(), "a".repeat(52));
    name.set_name("a").unwrap();
    assert_eq!(name.into_buffer()[..4], [0xF012_FF61, 0, 0, 0]);
    assert_eq!(name.into_buffer()[4..], [0; 12]);
}

/// Words after the message stay as they are when its number is set.
#[test]
fn the_number_goes_into_no_packet_after() {
    let words = [0xF012_0541, 0, 0, 0, 0xF012_0742, 0, 0, 0];
    let mut name = FunctionBlockName::first(words).unwrap();
    name.set_function_block(6).unwrap();
    assert_eq!(
        name.into_buffer(),
        [0xF012_0641, 0, 0, 0, 0xF012_0742, 0, 0, 0]
    );
}

/// Text fills its last packet before another one is taken.
#[test]
fn packets_by_length() {
    let mut words = [0; 256];
    let mut name = FunctionBlockName::new(&mut words[..]).unwrap();
    for length in 0..=832 {
        name.set_name("a".repeat(length)).unwrap();
        assert_eq!(
            name.record().packets(),
            1.max((length + 12) / 13),
            "{length}"
        );
        assert_eq!(name.name_bytes().count(), length);
    }
}
