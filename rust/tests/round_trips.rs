//! What is set is read back, by getters, from words and from records; nothing else changes.

use frayedbin::{
    DeviceIdentity, Direction, EndpointDiscovery, EndpointInfo, EndpointName, Error,
    FunctionBlockInfo, FunctionBlockName, Kind, Midi1Port, ProductInstanceId, Record, UiHint,
    UmpStream,
};

/// Settings in any order give the words of their last values, which are read back.
#[test]
fn endpoint_discovery() -> Result<(), Error> {
    let mut m = EndpointDiscovery::new([9; 4])?;
    m.set_request_stream_configuration(true)?;
    m.set_request_product_instance_id(true)?;
    m.set_request_endpoint_name(true)?;
    m.set_request_device_identity(true)?;
    m.set_request_endpoint_info(true)?;
    m.set_request_endpoint_name(false)?;
    m.set_ump_version_minor(0xFE)?;
    m.set_ump_version_major(0xFF)?;
    assert_eq!(m.data(), [0xF000_FFFE, 0b11011, 0, 0]);
    let read = EndpointDiscovery::try_from(m.data())?;
    assert_eq!(
        (read.ump_version_major(), read.ump_version_minor()),
        (0xFF, 0xFE)
    );
    assert!(read.request_endpoint_info() && read.request_device_identity());
    assert!(!read.request_endpoint_name() && read.request_product_instance_id());
    assert!(read.request_stream_configuration());
    assert_eq!(read.record().numbers(), [0xFF, 0xFE, 1, 1, 0, 1, 1]);
    Ok(())
}

#[test]
fn endpoint_info() -> Result<(), Error> {
    let mut m = EndpointInfo::new(vec![9; 4])?;
    m.set_supports_sending_jr_timestamps(true)?;
    m.set_supports_receiving_jr_timestamps(true)?;
    m.set_number_of_function_blocks(127)?;
    m.set_static_function_blocks(true)?;
    m.set_static_function_blocks(false)?;
    assert_eq!(m.data(), [0xF001_0000, 0x7F00_0003, 0, 0]);
    assert!(m.supports_sending_jr_timestamps() && m.supports_receiving_jr_timestamps());
    assert!(!m.static_function_blocks());
    assert!(!m.supports_midi1_protocol() && !m.supports_midi2_protocol());
    assert_eq!(m.number_of_function_blocks(), 127);
    assert_eq!((m.ump_version_major(), m.ump_version_minor()), (0, 0));
    Ok(())
}

#[test]
fn device_identity() -> Result<(), Error> {
    let mut m = DeviceIdentity::new([9; 4])?;
    m.set_device_manufacturer([1, 2, 3])?;
    m.set_device_family(0x1234)?;
    m.set_device_family_model_number(0x0081)?;
    m.set_software_version([4, 5, 6, 127])?;
    assert_eq!(
        m.data(),
        [0xF002_0000, 0x0001_0203, 0x3424_0101, 0x0405_067F]
    );
    let read = DeviceIdentity::read(m.data())?;
    assert_eq!(read.device_manufacturer(), [1, 2, 3]);
    assert_eq!(read.device_family(), 0x1234);
    assert_eq!(read.device_family_model_number(), 0x0081);
    assert_eq!(read.software_version(), [4, 5, 6, 127]);
    Ok(())
}

#[test]
fn function_block_info() -> Result<(), Error> {
    let mut m = FunctionBlockInfo::new([9; 4])?;
    for hint in [
        UiHint::Sender,
        UiHint::SenderReceiver,
        UiHint::Undeclared,
        UiHint::Receiver,
    ] {
        m.set_ui_hint(hint)?;
        assert_eq!(m.ui_hint(), hint);
    }
    for port in [
        None,
        Some(Midi1Port::RestrictBandwidth),
        Some(Midi1Port::DontRestrictBandwidth),
    ] {
        m.set_midi1_port(port)?;
        assert_eq!(m.midi1_port(), port);
    }
    for direction in [
        Direction::Input,
        Direction::Bidirectional,
        Direction::Output,
    ] {
        m.set_direction(direction)?;
        assert_eq!(m.direction(), direction);
    }
    m.set_active(true)?;
    m.set_function_block_number(0x7F)?;
    m.set_first_group(0xF)?;
    m.set_number_of_groups_spanned(0xFE)?;
    m.set_midi_ci_version(0xFD)?;
    m.set_max_number_of_midi_ci_streams(0xFC)?;
    assert_eq!(m.data(), [0xF011_FF16, 0x0FFE_FDFC, 0, 0]);
    assert!(m.active());
    assert_eq!((m.function_block_number(), m.first_group()), (0x7F, 0xF));
    assert_eq!(
        (m.number_of_groups_spanned(), m.midi_ci_version()),
        (0xFE, 0xFD)
    );
    assert_eq!(m.max_number_of_midi_ci_streams(), 0xFC);
    Ok(())
}

/// Bits in no field are read past and kept.
#[test]
fn bits_in_no_field_are_kept() -> Result<(), Error> {
    let mut m = EndpointInfo::read([0xF001_0000, 0x00FF_FCFC, 5, 6])?;
    m.set_number_of_function_blocks(1)?;
    m.set_supports_midi1_protocol(true)?;
    assert_eq!(m.into_buffer(), [0xF001_0000, 0x01FF_FDFC, 5, 6]);
    let mut m = FunctionBlockInfo::read([0xF011_00C3, 0xF000_0000, 7, 8])?;
    assert_eq!(m.first_group(), 0);
    m.set_first_group(1)?;
    assert_eq!(m.into_buffer(), [0xF011_00C3, 0xF100_0000, 7, 8]);
    Ok(())
}

#[test]
fn texts_of_every_length() -> Result<(), Error> {
    let text = "Keys, Knöpfe & Pads, 鍵盤とパッド, 🎹".repeat(20);
    let ends = text
        .char_indices()
        .map(|(at, _)| at)
        .take_while(|&at| at <= 832);
    let mut words = [0; 256];
    for end in ends {
        let text = &text[..end];
        let mut m = EndpointName::new(&mut words[..])?;
        m.set_name(text)?;
        assert_eq!(EndpointName::read(m.data())?.name(), text);
        let mut m = ProductInstanceId::new(&mut words[..])?;
        m.set_id(text)?;
        assert_eq!(ProductInstanceId::read(m.data())?.id(), text);
        assert!(m.id_bytes().eq(text.bytes()));
        let mut m = FunctionBlockName::new(&mut words[..])?;
        m.set_name(text)?;
        m.set_function_block(77)?;
        let read = FunctionBlockName::read(m.data())?;
        assert_eq!((read.function_block(), read.name()), (77, text.to_string()));
    }
    Ok(())
}

/// A zero byte in a text is a character of its own, and vanishes on reading.
#[test]
fn a_zero_byte_vanishes() -> Result<(), Error> {
    let mut m = EndpointName::new([0; 4])?;
    m.set_name(b"a\0b")?;
    assert_eq!(m.data(), [0xF003_6100, 0x6200_0000, 0, 0]);
    assert_eq!(m.name(), "ab");
    m.set_name("")?;
    assert_eq!(m.name_bytes().next(), None);
    Ok(())
}

/// A record of a fixed kind is written as the message that it was read from.
#[test]
fn records() -> Result<(), Error> {
    let messages = [
        [0xF000_0102, 0x0000_001F, 0, 0],
        [0xF001_0101, 0xFF00_0303, 0, 0],
        [0xF002_0000, 0x007F_0102, 0x7F01_027F, 0x0102_037F],
        [0xF011_FF36, 0x0F01_0203, 0, 0],
    ];
    for words in messages {
        let record = UmpStream::read(words)?.record();
        let mut written = [9; 9];
        record.write(&mut written)?;
        assert_eq!(written[..4], words);
        assert_eq!(written[4..], [0, 0, 0, 0, 9]);
    }
    Ok(())
}

/// Chained settings on a record give what settings on words do.
#[test]
fn settings_on_a_record() -> Result<(), Error> {
    let record = Record::new(Kind::FunctionBlockInfo)
        .set_active(true)?
        .set_function_block_number(3)?
        .set_ui_hint(UiHint::Sender)?
        .set_midi1_port(Some(Midi1Port::RestrictBandwidth))?
        .set_direction(Direction::Output)?
        .set_first_group(15)?
        .set_number_of_groups_spanned(1)?
        .set_midi_ci_version(2)?
        .set_max_number_of_midi_ci_streams(4)?;
    assert_eq!(record.numbers(), [1, 3, 2, 2, 2, 15, 1, 2, 4]);
    let mut words = [0; 4];
    record.write(&mut words)?;
    assert_eq!(words, [0xF011_832A, 0x0F01_0204, 0, 0]);
    assert_eq!(UmpStream::read(words)?.record(), record);

    let record = Record::new(Kind::EndpointDiscovery)
        .set_ump_version_major(1)?
        .set_ump_version_minor(2)?
        .set_request_endpoint_info(true)?
        .set_request_device_identity(true)?
        .set_request_endpoint_name(true)?
        .set_request_product_instance_id(true)?
        .set_request_stream_configuration(true)?;
    assert_eq!(record.numbers(), [1, 2, 1, 1, 1, 1, 1]);

    let record = Record::new(Kind::EndpointInfo)
        .set_ump_version_major(1)?
        .set_ump_version_minor(2)?
        .set_supports_receiving_jr_timestamps(true)?
        .set_supports_sending_jr_timestamps(true)?;
    assert_eq!(record.numbers(), [1, 2, 0, 0, 0, 1, 1, 0]);

    let record = Record::new(Kind::DeviceIdentity)
        .set_device_manufacturer([1, 2, 3])?
        .set_device_family(16_383)?
        .set_device_family_model_number(128)?
        .set_software_version([4, 5, 6, 7])?;
    assert_eq!(record.numbers(), [1, 2, 3, 16_383, 128, 4, 5, 6, 7]);

    assert_eq!(
        Record::new(Kind::FunctionBlockName)
            .set_function_block(9)?
            .numbers(),
        [9]
    );
    Ok(())
}

/// A new record is that of a fresh message.
#[test]
fn new_records() -> Result<(), Error> {
    assert_eq!(
        Record::new(Kind::EndpointDiscovery),
        EndpointDiscovery::new([9; 8])?.record()
    );
    assert_eq!(
        Record::new(Kind::EndpointInfo),
        EndpointInfo::new([9; 8])?.record()
    );
    assert_eq!(
        Record::new(Kind::DeviceIdentity),
        DeviceIdentity::new([9; 8])?.record()
    );
    assert_eq!(
        Record::new(Kind::EndpointName),
        EndpointName::new([9; 8])?.record()
    );
    assert_eq!(
        Record::new(Kind::ProductInstanceId),
        ProductInstanceId::new([9; 8])?.record()
    );
    assert_eq!(
        Record::new(Kind::FunctionBlockInfo),
        FunctionBlockInfo::new([9; 8])?.record()
    );
    assert_eq!(
        Record::new(Kind::FunctionBlockName),
        FunctionBlockName::new([9; 8])?.record()
    );
    Ok(())
}

/// Messages print their fields by name.
#[test]
fn debug() -> Result<(), Error> {
    let name = FunctionBlockName::read([0xF012_0541, 0, 0, 0])?;
    assert_eq!(
        format!("{name:?}"),
        "FunctionBlockName { function_block: 5, name: \"A\" }"
    );
    assert_eq!(format!("{:?}", UmpStream::from(name)), format!("{name:?}"));
    Ok(())
}
