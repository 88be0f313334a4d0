//! The twelve cases that are proved of the definitions, run through the crate.

use frayedbin::{
    EndpointInfo, EndpointName, Error, FunctionBlockInfo, FunctionBlockName, Refusal, UmpStream,
};

const FULL: u32 = 0x6161_6161;

/// One packet of a first word and three zeros.
fn packet(first: u32) -> [u32; 4] {
    [first, 0, 0, 0]
}

/// An endpoint name in a buffer of two packets.
fn endpoint_name(text: &str) -> EndpointName<[u32; 8]> {
    let mut name = EndpointName::new([0xFFFF_FFFF; 8]).unwrap();
    name.set_name(text).unwrap();
    name
}

/// The name of block 5 in a buffer of two packets.
fn block_name(text: &str) -> FunctionBlockName<[u32; 8]> {
    let mut name = FunctionBlockName::new([0xFFFF_FFFF; 8]).unwrap();
    name.set_function_block(5).unwrap();
    name.set_name(text).unwrap();
    name
}

/// What was written is read back as it was said.
fn reads_back(words: &[u32], block: Option<u8>, text: &str) {
    match UmpStream::read(words).unwrap() {
        UmpStream::EndpointName(m) => {
            assert_eq!(block, None);
            assert_eq!(m.name(), text);
        }
        UmpStream::FunctionBlockName(m) => {
            assert_eq!(block, Some(m.function_block()));
            assert_eq!(m.name(), text);
        }
        other => panic!("{other:?}"),
    }
}

#[test]
fn case_1_an_empty_endpoint_name() {
    assert_eq!(endpoint_name("").data(), packet(0xF003_0000));
    reads_back(&packet(0xF003_0000), None, "");
}

#[test]
fn case_2_an_endpoint_name_of_one_letter() {
    assert_eq!(endpoint_name("A").data(), packet(0xF003_4100));
    reads_back(&packet(0xF003_4100), None, "A");
}

#[test]
fn case_3_fourteen_letters_fill_a_packet() {
    let words = [0xF003_6161, FULL, FULL, FULL];
    assert_eq!(endpoint_name(&"a".repeat(14)).data(), words);
    reads_back(&words, None, &"a".repeat(14));
}

#[test]
fn case_4_fifteen_letters_take_two_packets() {
    let words = [0xF403_6161, FULL, FULL, FULL, 0xFC03_6100, 0, 0, 0];
    assert_eq!(endpoint_name(&"a".repeat(15)).data(), words);
    reads_back(&words, None, &"a".repeat(15));
}

#[test]
fn case_5_a_block_name_has_room_for_thirteen() {
    let words = [0xF012_0561, FULL, FULL, FULL];
    assert_eq!(block_name(&"a".repeat(13)).data(), words);
    reads_back(&words, Some(5), &"a".repeat(13));
}

#[test]
fn case_6_a_block_name_of_fourteen_takes_two_packets() {
    let words = [0xF412_0561, FULL, FULL, FULL, 0xFC12_0561, 0, 0, 0];
    assert_eq!(block_name(&"a".repeat(14)).data(), words);
    reads_back(&words, Some(5), &"a".repeat(14));
}

#[test]
fn case_7_a_fresh_block_info() {
    let info = FunctionBlockInfo::new([0xFFFF_FFFF; 4]).unwrap();
    assert_eq!(info.data(), packet(0xF011_0003));
}

#[test]
fn case_8_a_bad_port_comes_before_a_bad_direction() {
    assert_eq!(
        UmpStream::read(packet(0xF011_000C)),
        Err::<UmpStream<[u32; 4]>, _>(Refusal::BadPort)
    );
}

#[test]
fn case_9_zeros_are_dropped_before_the_text_is_checked() {
    let words = [0xF003_C300, 0xA900_0000, 0, 0];
    reads_back(&words, None, "é");
    let name = EndpointName::read(words).unwrap();
    assert_eq!(name.name_bytes().collect::<Vec<u8>>(), [0xC3, 0xA9]);
}

#[test]
fn case_10_text_that_is_not_utf_8() {
    assert_eq!(
        EndpointName::read(packet(0xF003_C328)),
        Err::<EndpointName<[u32; 4]>, _>(Error::Refused(Refusal::NotUtf8))
    );
}

#[test]
fn case_11_an_endpoint_info() {
    let mut info = EndpointInfo::new([0; 4]).unwrap();
    info.set_ump_version_major(1).unwrap();
    info.set_ump_version_minor(1).unwrap();
    info.set_static_function_blocks(true).unwrap();
    info.set_number_of_function_blocks(4).unwrap();
    info.set_supports_midi2_protocol(true).unwrap();
    info.set_supports_midi1_protocol(true).unwrap();
    assert_eq!(info.data(), [0xF001_0101, 0x8400_0300, 0, 0]);
}

#[test]
fn case_12_a_second_packet_of_another_block() {
    let mut words = block_name(&"a".repeat(14)).into_buffer();
    words[4] = 0xFC12_0661;
    let refusal = UmpStream::read(words).unwrap_err();
    assert_eq!(refusal, Refusal::BlockNumberDiffers(1));
    assert_eq!((refusal.number(), refusal.place()), (8, 1));
}
