//! A vector has the length of its message: it grows and shrinks with the text, and a refused call
//! leaves it as it was.

use frayedbin::{
    EndpointInfo, EndpointName, Error, FunctionBlockName, ProductInstanceId, Refusal, MOST_WORDS,
};

#[test]
fn a_new_message_has_one_packet() -> Result<(), Error> {
    for before in [vec![], vec![9; 3], vec![9; 4], vec![9; 50]] {
        let info = EndpointInfo::new(before)?;
        assert_eq!(info.into_buffer(), [0xF001_0000, 0, 0, 0]);
    }
    assert_eq!(EndpointInfo::<Vec<u32>>::try_new()?.into_buffer().len(), 4);
    Ok(())
}

#[test]
fn a_longer_name_just_works() -> Result<(), Error> {
    let mut name = EndpointName::new(Vec::new())?;
    for length in (0..=896).chain((0..=896).rev()) {
        let text = "a".repeat(length);
        name.set_name(&text)?;
        assert_eq!(name.data().len(), 4.max((length + 13) / 14 * 4));
        assert_eq!(name.clone().into_buffer(), name.data());
        assert_eq!(name.name(), text);
    }
    Ok(())
}

/// Equal settings give equal vectors, whatever came between.
#[test]
fn one_normal_form() -> Result<(), Error> {
    let texts = ["", "short", "two packets, no less", "日本語の名前、長い方"];
    for last in texts {
        let mut direct = FunctionBlockName::new(Vec::new())?;
        direct.set_name(last)?;
        direct.set_function_block(5)?;
        for between in texts {
            let mut name = FunctionBlockName::new(vec![0xFFFF_FFFF; 40])?;
            name.set_function_block(5)?;
            name.set_name(between.repeat(3))?;
            name.set_name([0xFF]).unwrap_err();
            name.set_name("a".repeat(833)).unwrap_err();
            name.set_name(last)?;
            assert_eq!(name.into_buffer(), direct.clone().into_buffer());
        }
    }
    Ok(())
}

#[test]
fn a_refused_text_leaves_the_vector_as_it_was() -> Result<(), Error> {
    let mut name = EndpointName::new(Vec::new())?;
    name.set_name("before")?;
    let before = name.clone().into_buffer();
    let mut bad = "a".repeat(500).into_bytes();
    bad.push(0xFF);
    let refused = [
        (bad, Error::Refused(Refusal::NotUtf8)),
        (vec![0xFF; 2000], Error::Refused(Refusal::NotUtf8)),
        (
            vec![b'a'; 897],
            Error::TextTooLong {
                refusal: Refusal::TooManyPackets,
                length: 897,
                most: 896,
            },
        ),
    ];
    for (text, error) in refused {
        assert_eq!(name.set_name(text), Err(error));
        assert_eq!(name.clone().into_buffer(), before);
        assert_eq!(name.name(), "before");
    }
    Ok(())
}

/// The words after a message go when its text is set, and stay when its number is.
#[test]
fn a_message_at_the_start_of_a_vector() -> Result<(), Error> {
    let stream = vec![0xF012_0541, 0, 0, 0, 0x2090_4040];
    let mut name = FunctionBlockName::first(stream.clone())?;
    name.set_function_block(6)?;
    assert_eq!(name.clone().into_buffer()[4..], stream[4..]);
    name.set_name([0xFF]).unwrap_err();
    assert_eq!(name.clone().into_buffer().len(), 5);
    name.set_name("B")?;
    assert_eq!(name.into_buffer(), [0xF012_0642, 0, 0, 0]);
    Ok(())
}

/// A vector that is lent grows as its owner's.
#[test]
fn a_lent_vector() -> Result<(), Error> {
    let mut words = Vec::new();
    let mut id = ProductInstanceId::new(&mut words)?;
    id.set_id("a serial number")?;
    assert_eq!(words.len(), 8);
    assert_eq!(ProductInstanceId::read(&words)?.id(), "a serial number");
    Ok(())
}

/// Arrays, slices and boxed slices do not grow.
#[test]
fn fixed_buffers() -> Result<(), Error> {
    let text = "a".repeat(29);
    let no_room = |most| Error::TextTooLong {
        refusal: Refusal::NoRoom,
        length: 29,
        most,
    };
    let mut words = [0; 11];
    assert_eq!(EndpointName::new(words)?.set_name(&text), Err(no_room(28)));
    let mut name = EndpointName::new(&mut words[..5])?;
    assert_eq!(name.set_name(&text), Err(no_room(14)));
    let mut name = EndpointName::new(vec![0; 8].into_boxed_slice())?;
    assert_eq!(name.set_name(&text), Err(no_room(28)));
    let mut name = EndpointName::new(vec![0; MOST_WORDS].into_boxed_slice())?;
    assert_eq!(name.set_name(&text), Ok(()));
    assert_eq!(name.into_buffer().len(), MOST_WORDS);
    Ok(())
}
