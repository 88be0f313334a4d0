//! What those who know midi2 write, as docs/FROM_MIDI2.md has it.

use frayedbin::ump_stream::{
    EndpointInfo, EndpointName, Format, FunctionBlockInfo, FunctionBlockName, Packet,
    ProductInstanceId, TextBytesIterator, UiHint, UmpStream,
};
use frayedbin::{Error, Kind};

#[test]
fn the_first_lines() -> Result<(), Error> {
    let mut name = FunctionBlockName::<Vec<u32>>::try_new()?;
    name.set_function_block(5)?;
    name.set_name("Keys & Knobs")?;
    assert_eq!(
        name.data(),
        [0xF012_054B, 0x6579_7320, 0x2620_4B6E, 0x6F62_7300]
    );
    Ok(())
}

#[test]
fn messages_in_buffers_of_their_own() -> Result<(), Error> {
    let info = EndpointInfo::<[u32; 4]>::try_new()?;
    assert_eq!(info.data(), [0xF001_0000, 0, 0, 0]);
    let block = FunctionBlockInfo::<[u32; 40]>::try_new()?;
    assert_eq!(block.into_buffer()[..5], [0xF011_0003, 0, 0, 0, 0]);
    assert_eq!(
        EndpointInfo::<[u32; 3]>::try_new().unwrap_err().number(),
        14
    );
    Ok(())
}

#[test]
fn texts_that_may_not_fit() -> Result<(), Error> {
    let mut name = EndpointName::<[u32; 4]>::try_new()?;
    assert_eq!(name.try_set_name("fourteen bytes"), Ok(()));
    let error = name.try_set_name("fifteen letters").unwrap_err();
    assert_eq!(error.number(), 14);
    assert_eq!(name.name(), "fourteen bytes");

    let mut name = FunctionBlockName::<Vec<u32>>::try_new()?;
    name.try_set_name("fourteen bytes")?;
    let bytes: TextBytesIterator<'_> = name.name_bytes();
    assert_eq!(bytes.collect::<Vec<u8>>(), b"fourteen bytes");

    let mut id = ProductInstanceId::<Vec<u32>>::try_new()?;
    id.try_set_id("a serial number")?;
    assert_eq!(id.id(), "a serial number");
    Ok(())
}

#[test]
fn packets_in_order() -> Result<(), Error> {
    let mut name = EndpointName::<Vec<u32>>::try_new()?;
    name.set_name("a name of thirty-one characters")?;
    let packets: Vec<Packet> = name.packets().collect();
    let formats: Vec<Format> = packets.iter().map(Packet::format).collect();
    assert_eq!(formats, [Format::Start, Format::Continue, Format::End]);
    let words: Vec<u32> = packets.iter().flat_map(|p| p.to_vec()).collect();
    assert_eq!(words, name.data());
    assert_eq!(name.packets().size_hint(), (0, Some(3)));

    let mut packets = UmpStream::from(name).packets().count();
    assert_eq!(packets, 3);
    packets = EndpointInfo::<[u32; 9]>::try_new()?.packets().count();
    assert_eq!(packets, 1);
    Ok(())
}

#[test]
fn the_other_spelling() -> Result<(), Error> {
    let mut block = FunctionBlockInfo::<[u32; 4]>::try_new()?;
    block.set_ui_hint(UiHint::SenderReciever)?;
    match block.ui_hint() {
        UiHint::SenderReciever => {}
        UiHint::Undeclared | UiHint::Sender | UiHint::Receiver => panic!("another hint"),
    }
    Ok(())
}

/// A message found in a stream, kept in a buffer of its own, by any of its types.
#[test]
fn other_buffers_and_types() -> Result<(), Error> {
    let words = [0xF012_0541, 0, 0, 0];
    let name = FunctionBlockName::try_from(&words[..])?;
    let kept: FunctionBlockName<Vec<u32>> = FunctionBlockName::read(name.data().to_vec())?;
    assert_eq!(kept, name);
    let any = UmpStream::from(kept);
    assert_eq!(any, UmpStream::try_from(&words[..])?);
    assert_eq!(FunctionBlockName::try_from(any)?.name(), "A");
    Ok(())
}

#[test]
fn one_answer_for_each_wrong() {
    let told = |words: &[u32]| match FunctionBlockName::read(words) {
        Err(Error::WrongKind { expected, found }) => format!("{found} in place of {expected}"),
        Err(error) => format!(
            "{error}: number {}, packet {}",
            error.number(),
            error.place()
        ),
        Ok(name) => name.name(),
    };
    let (found, expected) = (Kind::EndpointInfo, Kind::FunctionBlockName);
    assert_eq!(
        told(&[0xF001_0000, 0, 0, 0]),
        format!("{found} in place of {expected}")
    );
    assert!(told(&[0xF012_0000, 0, 0, 0, 0, 0, 0, 0]).ends_with(": number 4, packet 1"));
    assert_eq!(told(&[0xF012_0541, 0, 0, 0]), "A");
}
