//! Each refusal by number and place, and that a refused call changes no word.

use frayedbin::{
    message_size, packet, DeviceIdentity, EndpointDiscovery, EndpointInfo, EndpointName, Error,
    FunctionBlockInfo, FunctionBlockName, Kind, ProductInstanceId, Record, Refusal, UmpStream,
};

/// The refusal of some words as one message.
fn refused(words: &[u32]) -> (u32, usize) {
    let refusal = UmpStream::read(words).unwrap_err();
    (refusal.number(), refusal.place())
}

/// Packets of these first words, the rest zero.
fn packets(first: &[u32]) -> Vec<u32> {
    first.iter().flat_map(|&word| [word, 0, 0, 0]).collect()
}

/// An endpoint name of so many packets and no text.
fn long_name(count: usize) -> Vec<u32> {
    let mut first = vec![0xF803_0000; count];
    first[0] = 0xF403_0000;
    first[count - 1] = 0xFC03_0000;
    packets(&first)
}

#[test]
fn reading_refuses_in_the_order_of_the_numbers() {
    assert_eq!(refused(&[]), (1, 0));
    assert_eq!(refused(&[0xF003_0000, 0, 0]), (1, 0));
    assert_eq!(refused(&[0x1003_0000, 0, 0, 0, 0]), (2, 0));
    assert_eq!(
        UmpStream::read(long_name(64)).unwrap().record().packets(),
        64
    );
    assert_eq!(refused(&long_name(65)), (3, 0));
    assert_eq!(refused(&packets(&[0x1003_0000])), (4, 0));
    assert_eq!(
        refused(&packets(&[0xF403_0000, 0xFC04_0000, 0x0C03_0000])),
        (4, 2)
    );
    assert_eq!(refused(&packets(&[0xF005_0000])), (5, 0));
    assert_eq!(
        refused(&packets(&[0xF403_0000, 0xF003_0000, 0xFC04_0000])),
        (6, 2)
    );
    assert_eq!(refused(&packets(&[0xF401_0000, 0xFC01_0000])), (7, 1));
    assert_eq!(refused(&packets(&[0xF403_C300])), (7, 0));
    assert_eq!(
        refused(&packets(&[0xF403_0000, 0xF403_0000, 0xFC03_0000])),
        (7, 1)
    );
    assert_eq!(refused(&packets(&[0xF412_05C3, 0xFC12_0600])), (8, 1));
    assert_eq!(refused(&packets(&[0xF011_000C])), (9, 0));
    assert_eq!(refused(&packets(&[0xF011_0000])), (10, 0));
    assert_eq!(refused(&packets(&[0xF004_C300])), (11, 0));
}

#[test]
fn a_type_refuses_messages_of_other_kinds() {
    let words = [0xF001_0101, 0, 0, 0];
    let found = Kind::EndpointInfo;
    let wrong = |expected| Error::WrongKind { expected, found };
    assert!(EndpointInfo::read(words).is_ok());
    let error = EndpointDiscovery::read(words).unwrap_err();
    assert_eq!(error, wrong(Kind::EndpointDiscovery));
    let error = EndpointName::try_from(&words[..]).unwrap_err();
    assert_eq!(error, wrong(Kind::EndpointName));
    let error = ProductInstanceId::first(words).unwrap_err();
    assert_eq!(error, wrong(Kind::ProductInstanceId));
    let any = UmpStream::read(words).unwrap();
    assert!(EndpointInfo::try_from(any).is_ok());
    let error = FunctionBlockName::try_from(any).unwrap_err();
    assert_eq!(error, wrong(Kind::FunctionBlockName));
    assert_eq!((error.number(), error.place()), (13, 0));
    assert_eq!(Refusal::from(error), Refusal::NoSuchField);
    assert_eq!(
        error.to_string(),
        "expected function-block-name, found endpoint-info"
    );
    let error = EndpointName::read([0xF005_0000, 0, 0, 0]).unwrap_err();
    assert_eq!(error, Error::Refused(Refusal::UnknownStatus));
}

#[test]
fn the_first_message_of_a_buffer() {
    let words = [0xF003_4100, 0, 0, 0, 0x2090_4040];
    let error = EndpointName::read(words).unwrap_err();
    assert_eq!(error, Error::Refused(Refusal::NotWholePackets));
    let mut name = EndpointName::first(words).unwrap();
    assert_eq!(name.name(), "A");
    assert_eq!(name.data().len(), 4);
    name.set_name("B").unwrap();
    assert_eq!(name.into_buffer(), [0xF003_4200, 0, 0, 0, 0x2090_4040]);

    let refused = |words: &[u32]| EndpointName::first(words).unwrap_err().refusal();
    assert_eq!(refused(&[]), Refusal::TooFewWords);
    assert_eq!(refused(&[0x2090_4040]), Refusal::WrongType(0));
    assert_eq!(refused(&[0x4090_4040]), Refusal::TooFewWords);
    assert_eq!(refused(&[0xFC03_0000, 0, 0, 0]), Refusal::WrongFormat(0));
}

#[test]
fn a_fresh_message_needs_a_whole_packet() {
    let mut words = [7; 3];
    assert_eq!(
        EndpointInfo::new(&mut words[..]).unwrap_err(),
        Error::Refused(Refusal::NoRoom)
    );
    assert_eq!(words, [7; 3]);
    let mut words = [7; 6];
    assert!(EndpointInfo::new(&mut words[..]).is_ok());
    assert_eq!(words, [0xF001_0000, 0, 0, 0, 7, 7]);
}

/// A refused setting leaves words and fields as they were.
#[test]
fn numbers_above_their_largest() {
    let mut info = EndpointInfo::new([0; 4]).unwrap();
    assert_eq!(info.set_number_of_function_blocks(127), Ok(()));
    let before = info.into_buffer();
    assert_eq!(
        info.set_number_of_function_blocks(128),
        Err(Refusal::NumberTooLarge)
    );
    assert_eq!(info.into_buffer(), before);
    assert_eq!(info.number_of_function_blocks(), 127);

    let mut identity = DeviceIdentity::new([0; 4]).unwrap();
    assert_eq!(
        identity.set_device_manufacturer([0, 127, 128]),
        Err(Refusal::NumberTooLarge)
    );
    assert_eq!(
        identity.set_software_version([128, 0, 0, 0]),
        Err(Refusal::NumberTooLarge)
    );
    assert_eq!(
        identity.set_device_family(16_384),
        Err(Refusal::NumberTooLarge)
    );
    assert_eq!(
        identity.set_device_family_model_number(u16::MAX),
        Err(Refusal::NumberTooLarge)
    );
    assert_eq!(identity.data(), [0xF002_0000, 0, 0, 0]);
    assert_eq!(identity.set_device_family(16_383), Ok(()));
    assert_eq!(identity.data(), [0xF002_0000, 0, 0x7F7F_0000, 0]);

    let mut block = FunctionBlockInfo::new([0; 4]).unwrap();
    assert_eq!(block.set_first_group(16), Err(Refusal::NumberTooLarge));
    assert_eq!(block.set_first_group(15), Ok(()));
    assert_eq!(
        block.set_function_block_number(128),
        Err(Refusal::NumberTooLarge)
    );
    assert_eq!(block.set_function_block_number(127), Ok(()));
    assert_eq!(block.data(), [0xF011_7F03, 0x0F00_0000, 0, 0]);
}

/// The error of a text that is too long.
fn too_long(refusal: Refusal, length: usize, most: usize) -> Result<(), Error> {
    Err(Error::TextTooLong {
        refusal,
        length,
        most,
    })
}

#[test]
fn text_is_refused_with_11_then_3_then_14() {
    let mut name = EndpointName::new([0; 8]).unwrap();
    name.set_name("before").unwrap();
    let before = name.into_buffer();
    let not_utf8 = Err(Error::Refused(Refusal::NotUtf8));
    assert_eq!(name.set_name(vec![0xFF; 2000]), not_utf8);
    assert_eq!(name.set_name([0xC3, 0x00, 0xA9]), not_utf8);
    assert_eq!(
        name.set_name("a".repeat(897)),
        too_long(Refusal::TooManyPackets, 897, 28)
    );
    assert_eq!(
        name.set_name("a".repeat(29)),
        too_long(Refusal::NoRoom, 29, 28)
    );
    assert_eq!(name.into_buffer(), before);
    assert_eq!(name.name(), "before");
}

/// Text of as many bytes as an error says is taken.
#[test]
fn the_longest_texts() {
    let mut words = vec![0; frayedbin::MOST_WORDS + 4];
    let mut name = EndpointName::new(&mut words[..]).unwrap();
    let longest = frayedbin::MOST_NAME_BYTES;
    assert_eq!(name.set_name("a".repeat(longest)), Ok(()));
    assert_eq!(name.record().packets(), frayedbin::MOST_PACKETS);
    assert_eq!(name.name(), "a".repeat(896));
    assert_eq!(
        name.set_name("a".repeat(897)),
        too_long(Refusal::TooManyPackets, 897, longest)
    );

    let mut name = FunctionBlockName::new(&mut words[..]).unwrap();
    let longest = frayedbin::MOST_BLOCK_NAME_BYTES;
    assert_eq!(name.set_name("a".repeat(longest)), Ok(()));
    assert_eq!(name.record().packets(), frayedbin::MOST_PACKETS);
    assert_eq!(name.name(), "a".repeat(832));
    assert_eq!(
        name.set_name("a".repeat(833)),
        too_long(Refusal::TooManyPackets, 833, longest)
    );

    let mut id = ProductInstanceId::new([0; 14]).unwrap();
    let error = id.set_id("a".repeat(43)).unwrap_err();
    assert_eq!(
        error.to_string(),
        "a text of 43 bytes is too long: at most 42 bytes fit here"
    );
    assert_eq!((error.number(), error.place()), (14, 0));
    assert_eq!(id.set_id("a".repeat(42)), Ok(()));
}

#[test]
fn records_refuse_with_13_then_12() {
    let name = Record::new(Kind::EndpointName);
    assert_eq!(
        name.set_number_of_function_blocks(128),
        Err(Refusal::NoSuchField)
    );
    assert_eq!(name.write(&mut [0; 4]), Err(Refusal::NoSuchField));
    let info = Record::new(Kind::EndpointInfo);
    assert_eq!(
        info.set_number_of_function_blocks(128),
        Err(Refusal::NumberTooLarge)
    );
    assert_eq!(info.write(&mut [0; 3]), Err(Refusal::NoRoom));
    assert_eq!(info.write(&mut []), Err(Refusal::NoRoom));
}

#[test]
fn packets_and_sizes() {
    assert_eq!(packet(&[]), Err(Refusal::TooFewWords));
    assert_eq!(packet(&[0xE000_0000, 1, 2, 3]), Err(Refusal::WrongType(0)));
    assert_eq!(
        *packet(&[0xF000_0000, 1, 2, 3, 4]).unwrap(),
        [0xF000_0000, 1, 2, 3]
    );
    assert_eq!(message_size(&[]), Err(Refusal::TooFewWords));
    assert_eq!(message_size(&long_name(66)), Ok(264));
    assert_eq!(
        message_size(&long_name(66)[..263]),
        Err(Refusal::TooFewWords)
    );
}

#[test]
fn a_refusal_says_number_sentence_and_place() {
    let refusal = UmpStream::read(packets(&[0xF412_0500, 0xFC12_0600])).unwrap_err();
    assert_eq!(
        refusal.to_string(),
        "refusal 8: a later packet has another block number, packet 1"
    );
    let error: Box<dyn std::error::Error> = Refusal::NoRoom.into();
    assert_eq!(error.to_string(), "refusal 14: there is too little room");
    assert_eq!(Error::from(refusal).to_string(), refusal.to_string());
}
