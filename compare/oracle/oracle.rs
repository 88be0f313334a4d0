//! Plain questions to the given Rust. Each says which given function answers, and what part of the answer is a stand-in's.

use crate::{
    detail::BitOps,
    traits::Size,
    ump_stream::{
        probe, DeviceIdentity, Direction, EndpointDiscovery, EndpointInfo, EndpointName, Format, FunctionBlockInfo,
        FunctionBlockName, Midi1Port, Packet, ProductInstanceId, UiHint, UmpStream,
    },
    ux::{u14, u2, u4, u7},
};
use std::convert::TryFrom;
use std::panic::{catch_unwind, AssertUnwindSafe};

/// What the Rust answers: a value, an error with its sentence, or a panic.
#[derive(Clone, Copy, Debug, PartialEq, Eq)]
pub enum Reply<T> {
    Done(T),
    Error(&'static str),
    Panic,
}

/// The kinds that are compared, by status.
pub const STATUSES: [u16; 7] = [0x00, 0x01, 0x02, 0x03, 0x04, 0x11, 0x12];

/// The sentence for a number that the Rust's type does not hold.
pub const NO_SUCH_NUMBER: &str = "its type holds no such number";
/// The sentence for a setting on another kind of message.
pub const ANOTHER_KIND: &str = "its type is another message's";
/// The sentence for text that is no `&str`.
pub const NO_STR: &str = "a str holds no such text";
/// The sentence for a field that the kind lacks.
pub const NO_SUCH_FIELD: &str = "no such method";
/// The sentence for one of the five kinds that are not compared.
pub const NOT_COMPARED: &str = "another kind of UmpStream";

/// Keeps panics from being printed; call it once.
pub fn quiet() {
    std::panic::set_hook(Box::new(|_| {}));
}

fn caught<T>(ask: impl FnOnce() -> Result<T, &'static str>) -> Reply<T> {
    match catch_unwind(AssertUnwindSafe(ask)) {
        Ok(Ok(value)) => Reply::Done(value),
        Ok(Err(why)) => Reply::Error(why),
        Err(_) => Reply::Panic,
    }
}

/// The first four words and the format. Given: `Packet::try_from`, `Packet::format`.
pub fn packet(words: &[u32]) -> Reply<([u32; 4], u8)> {
    caught(|| {
        let packet = Packet::try_from(words).map_err(|e| e.0)?;
        let format = match packet.format() {
            Format::Complete => 0,
            Format::Start => 1,
            Format::Continue => 2,
            Format::End => 3,
        };
        Ok(([packet[0], packet[1], packet[2], packet[3]], format))
    })
}

/// Words up to and with the packet that ends the message. Given: `message_size`.
pub fn message_size(words: &[u32]) -> Reply<usize> {
    caught(|| Ok(probe::size(words)))
}

/// Given: `status_from_buffer`.
pub fn status(words: &[u32]) -> Reply<u16> {
    caught(|| Ok(probe::status(words)))
}

/// Whether the formats are those of one message. Given: `ConsistentFormatsProperty`, `validate_sysex_group_statuses`.
pub fn formats(words: &[u32]) -> Reply<()> {
    caught(|| probe::are_formats(words).map_err(|e| e.0))
}

/// The text's bytes. Given: `TextReadBytesProperty` of both offsets, `TextBytesIterator`.
pub fn text_bytes(words: &[u32], offset: usize, text: &mut Vec<u8>) -> Reply<()> {
    text.clear();
    caught(|| {
        for byte in probe::bytes(&words, offset) {
            text.push(byte);
        }
        Ok(())
    })
}

/// Whether the text's bytes are UTF-8. Given: `TextReadStringProperty` of both offsets; std's `from_utf8`.
pub fn is_text(words: &[u32], offset: usize) -> Reply<()> {
    caught(|| probe::is_text(words, offset).map_err(|e| e.0))
}

/// One byte of text from a place, and the place after it. Given: `TextBytesIterator::next`.
pub fn step(words: &[u32], offset: usize, packet: usize, byte: usize) -> Reply<(Option<u8>, usize, usize)> {
    caught(|| Ok(probe::step(words, offset, packet, byte)))
}

/// A message that was read: fields in the order of 01's table.
#[derive(Clone, Copy, Debug, PartialEq, Eq)]
pub struct Message {
    pub status: u16,
    pub packets: usize,
    pub count: usize,
    pub fields: [u32; 9],
}

fn message(status: u16, packets: usize, values: &[u32]) -> Message {
    let mut fields = [0; 9];
    fields[..values.len()].copy_from_slice(values);
    Message { status, packets, count: values.len(), fields }
}

fn discovery(m: &EndpointDiscovery<&[u32]>) -> Message {
    message(
        0x00,
        1,
        &[
            m.ump_version_major() as u32,
            m.ump_version_minor() as u32,
            m.request_endpoint_info() as u32,
            m.request_device_identity() as u32,
            m.request_endpoint_name() as u32,
            m.request_product_instance_id() as u32,
            m.request_stream_configuration() as u32,
        ],
    )
}

fn endpoint(m: &EndpointInfo<&[u32]>) -> Message {
    message(
        0x01,
        1,
        &[
            m.ump_version_major() as u32,
            m.ump_version_minor() as u32,
            m.static_function_blocks() as u32,
            m.supports_midi2_protocol() as u32,
            m.supports_midi1_protocol() as u32,
            m.supports_receiving_jr_timestamps() as u32,
            m.supports_sending_jr_timestamps() as u32,
            u32::from(m.number_of_function_blocks()),
        ],
    )
}

fn identity(m: &DeviceIdentity<&[u32]>) -> Message {
    let maker = m.device_manufacturer().map(u32::from);
    let version = m.software_version().map(u32::from);
    message(
        0x02,
        1,
        &[
            maker[0],
            maker[1],
            maker[2],
            u32::from(m.device_family()),
            u32::from(m.device_family_model_number()),
            version[0],
            version[1],
            version[2],
            version[3],
        ],
    )
}

/// The code that the standard gives a choice.
fn hint_code(hint: UiHint) -> u32 {
    match hint {
        UiHint::Undeclared => 0,
        UiHint::Receiver => 1,
        UiHint::Sender => 2,
        UiHint::SenderReciever => 3,
    }
}

fn port_code(port: Option<Midi1Port>) -> u32 {
    match port {
        None => 0,
        Some(Midi1Port::DontRestrictBandwidth) => 1,
        Some(Midi1Port::RestrictBandwidth) => 2,
    }
}

fn direction_code(direction: Direction) -> u32 {
    match direction {
        Direction::Input => 1,
        Direction::Output => 2,
        Direction::Bidirectional => 3,
    }
}

/// The fields of a block info. The benchmark adds them up, and a call in between would cost it a store of each.
#[inline(always)]
pub(crate) fn block(m: &FunctionBlockInfo<&[u32]>) -> [u32; 9] {
    [
        m.active() as u32,
        u32::from(m.function_block_number()),
        hint_code(m.ui_hint()),
        port_code(m.midi1_port()),
        direction_code(m.direction()),
        u32::from(m.first_group()),
        m.number_of_groups_spanned() as u32,
        m.midi_ci_version() as u32,
        m.max_number_of_midi_ci_streams() as u32,
    ]
}

/// A message and its text, or the error of the first property that refuses it.
/// Given: `UmpStream::try_from` and its dispatch; the list of properties and their masks of five kinds; the `validate`
/// and `read` of status, formats, text, block number, hint, port and direction; the septets of manufacturer and version;
/// `message_size` for texts.
/// Stand-ins: that a slice is refused under the least size and then by each property in turn; the type of the first
/// word; the other fields, read through the given masks; the lists of statuses 0x03 and 0x04; one packet for a fixed
/// kind; the five kinds that are not compared.
pub fn read(words: &[u32], text: &mut Vec<u8>) -> Reply<Message> {
    text.clear();
    caught(|| {
        Ok(match UmpStream::try_from(words).map_err(|e| e.0)? {
            UmpStream::EndpointDiscovery(m) => discovery(&m),
            UmpStream::EndpointInfo(m) => endpoint(&m),
            UmpStream::DeviceIdentity(m) => identity(&m),
            UmpStream::EndpointName(m) => {
                text.extend_from_slice(m.name().as_bytes());
                message(0x03, m.size() / 4, &[])
            }
            UmpStream::ProductInstanceId(m) => {
                text.extend_from_slice(m.name().as_bytes());
                message(0x04, m.size() / 4, &[])
            }
            UmpStream::FunctionBlockInfo(m) => message(0x11, 1, &block(&m)),
            UmpStream::FunctionBlockName(m) => {
                text.extend_from_slice(m.name().as_bytes());
                message(0x12, m.size() / 4, &[m.function_block() as u32])
            }
            _ => message(probe::status(words), 1, &[]),
        })
    })
}

/// Hint, port and direction read without a check before. Given: the three properties' `read`.
pub fn choices(words: &[u32]) -> [Reply<u32>; 3] {
    let block = FunctionBlockInfo::over(words);
    [
        caught(|| Ok(hint_code(block.ui_hint()))),
        caught(|| Ok(port_code(block.midi1_port()))),
        caught(|| Ok(direction_code(block.direction()))),
    ]
}

/// A new message of one packet.
/// Given: `default` and `write` of status, formats, hint, port, direction, block number. Stand-in: that they are written
/// in the order of the list, the type first, the other fields zero.
pub fn fresh(status: u16) -> Reply<Vec<u32>> {
    caught(|| {
        Ok(match status {
            0x00 => EndpointDiscovery::<Vec<u32>>::new().into_words(),
            0x01 => EndpointInfo::<Vec<u32>>::new().into_words(),
            0x02 => DeviceIdentity::<Vec<u32>>::new().into_words(),
            0x03 => EndpointName::<Vec<u32>>::new().into_words(),
            0x04 => ProductInstanceId::<Vec<u32>>::new().into_words(),
            0x11 => FunctionBlockInfo::<Vec<u32>>::new().into_words(),
            0x12 => FunctionBlockName::<Vec<u32>>::new().into_words(),
            _ => return Err(NO_SUCH_FIELD),
        })
    })
}

/// That the words begin with a message of this kind: framed by `message_size`, then taken by `UmpStream::try_from`, both
/// given.
fn begins_with(words: &[u32], status: u16) -> Result<(), &'static str> {
    let framed = &words[..probe::size(words)];
    let found = match UmpStream::try_from(framed).map_err(|e| e.0)? {
        UmpStream::EndpointDiscovery(_) => 0x00,
        UmpStream::EndpointInfo(_) => 0x01,
        UmpStream::DeviceIdentity(_) => 0x02,
        UmpStream::EndpointName(_) => 0x03,
        UmpStream::ProductInstanceId(_) => 0x04,
        UmpStream::FunctionBlockInfo(_) => 0x11,
        UmpStream::FunctionBlockName(_) => 0x12,
        _ => return Err(NOT_COMPARED),
    };
    if found == status {
        Ok(())
    } else {
        Err(ANOTHER_KIND)
    }
}

const OVERFLOW: &str = "BufferOverflow";

/// Sets the text of the message that the words begin with, in a buffer that cannot grow.
/// Given: `TextWriteStrProperty::try_resize` and `write`, with all that they call. Stand-in: that the setter is the one,
/// then the other.
pub fn set_text(status: u16, words: &mut [u32], text: &[u8]) -> Reply<()> {
    caught(|| {
        begins_with(words, status)?;
        let text = std::str::from_utf8(text).map_err(|_| NO_STR)?;
        match status {
            0x03 => EndpointName::over(words).try_set_name(text),
            0x04 => ProductInstanceId::over(words).try_set_name(text),
            0x12 => FunctionBlockName::over(words).try_set_name(text),
            _ => return Err(NO_SUCH_FIELD),
        }
        .map_err(|_| OVERFLOW)
    })
}

/// The same in a buffer that grows and shrinks. Given: `TextWriteStrProperty::resize` and `write`.
pub fn set_text_grown(status: u16, words: &mut Vec<u32>, text: &str) -> Reply<()> {
    caught(|| {
        begins_with(words, status)?;
        match status {
            0x03 => EndpointName::over(words).set_name(text),
            0x04 => ProductInstanceId::over(words).set_name(text),
            0x12 => FunctionBlockName::over(words).set_name(text),
            _ => return Err(NO_SUCH_FIELD),
        }
        Ok(())
    })
}

fn flag(v: u32) -> Result<bool, &'static str> {
    match v {
        0 => Ok(false),
        1 => Ok(true),
        _ => Err(NO_SUCH_NUMBER),
    }
}

fn byte(v: u32) -> Result<u8, &'static str> {
    u8::try_from(v).map_err(|_| NO_SUCH_NUMBER)
}

fn septet(v: u32) -> Result<u7, &'static str> {
    u7::try_from(v).map_err(|_| NO_SUCH_NUMBER)
}

fn fourteen(v: u32) -> Result<u14, &'static str> {
    u14::try_from(v).map_err(|_| NO_SUCH_NUMBER)
}

fn set_discovery(words: &mut [u32], field: usize, v: u32) -> Result<(), &'static str> {
    let mut m = EndpointDiscovery::over(words);
    match field {
        0 => m.set_ump_version_major(byte(v)?),
        1 => m.set_ump_version_minor(byte(v)?),
        2 => m.set_request_endpoint_info(flag(v)?),
        3 => m.set_request_device_identity(flag(v)?),
        4 => m.set_request_endpoint_name(flag(v)?),
        5 => m.set_request_product_instance_id(flag(v)?),
        6 => m.set_request_stream_configuration(flag(v)?),
        _ => return Err(NO_SUCH_FIELD),
    }
    Ok(())
}

fn set_endpoint(words: &mut [u32], field: usize, v: u32) -> Result<(), &'static str> {
    let mut m = EndpointInfo::over(words);
    match field {
        0 => m.set_ump_version_major(byte(v)?),
        1 => m.set_ump_version_minor(byte(v)?),
        2 => m.set_static_function_blocks(flag(v)?),
        3 => m.set_supports_midi2_protocol(flag(v)?),
        4 => m.set_supports_midi1_protocol(flag(v)?),
        5 => m.set_supports_receiving_jr_timestamps(flag(v)?),
        6 => m.set_supports_sending_jr_timestamps(flag(v)?),
        7 => m.set_number_of_function_blocks(septet(v)?),
        _ => return Err(NO_SUCH_FIELD),
    }
    Ok(())
}

fn set_identity(words: &mut [u32], field: usize, v: &[u32; 4]) -> Result<(), &'static str> {
    let mut m = DeviceIdentity::over(words);
    match field {
        0 => m.set_device_manufacturer([septet(v[0])?, septet(v[1])?, septet(v[2])?]),
        1 => m.set_device_family(fourteen(v[0])?),
        2 => m.set_device_family_model_number(fourteen(v[0])?),
        3 => m.set_software_version([septet(v[0])?, septet(v[1])?, septet(v[2])?, septet(v[3])?]),
        _ => return Err(NO_SUCH_FIELD),
    }
    Ok(())
}

fn hint(v: u32) -> Result<UiHint, &'static str> {
    Ok(match v {
        0 => UiHint::Undeclared,
        1 => UiHint::Receiver,
        2 => UiHint::Sender,
        3 => UiHint::SenderReciever,
        _ => return Err(NO_SUCH_NUMBER),
    })
}

fn port(v: u32) -> Result<Option<Midi1Port>, &'static str> {
    Ok(match v {
        0 => None,
        1 => Some(Midi1Port::DontRestrictBandwidth),
        2 => Some(Midi1Port::RestrictBandwidth),
        _ => return Err(NO_SUCH_NUMBER),
    })
}

fn direction(v: u32) -> Result<Direction, &'static str> {
    Ok(match v {
        1 => Direction::Input,
        2 => Direction::Output,
        3 => Direction::Bidirectional,
        _ => return Err(NO_SUCH_NUMBER),
    })
}

fn set_block(words: &mut [u32], field: usize, v: u32) -> Result<(), &'static str> {
    let mut m = FunctionBlockInfo::over(words);
    match field {
        0 => m.set_active(flag(v)?),
        1 => m.set_function_block_number(septet(v)?),
        2 => m.set_ui_hint(hint(v)?),
        3 => m.set_midi1_port(port(v)?),
        4 => m.set_direction(direction(v)?),
        5 => m.set_first_group(u4::try_from(v).map_err(|_| NO_SUCH_NUMBER)?),
        6 => m.set_number_of_groups_spanned(byte(v)?),
        7 => m.set_midi_ci_version(byte(v)?),
        8 => m.set_max_number_of_midi_ci_streams(byte(v)?),
        _ => return Err(NO_SUCH_FIELD),
    }
    Ok(())
}

/// Sets a field, numbered in the order of 01's table; manufacturer and version take several numbers, the others the first.
/// Given: `write` of hint, port, direction, block number; the septets of manufacturer and version. Stand-in: the others,
/// written through the given masks.
pub fn set_field(status: u16, field: usize, v: &[u32; 4], words: &mut [u32]) -> Reply<()> {
    caught(|| {
        begins_with(words, status)?;
        match status {
            0x00 => set_discovery(words, field, v[0]),
            0x01 => set_endpoint(words, field, v[0]),
            0x02 => set_identity(words, field, v),
            0x11 => set_block(words, field, v[0]),
            0x12 if field == 0 => {
                let number = byte(v[0])?;
                FunctionBlockName::over(words).set_function_block(number);
                Ok(())
            }
            _ => Err(NO_SUCH_FIELD),
        }
    })
}

/// Words needed for a text. Given: `required_buffer_size_for_str`.
pub fn needed(text: &str, offset: usize) -> Reply<usize> {
    caught(|| Ok(probe::needed(text, offset)))
}

/// Given: `clear_payload`.
pub fn clear_payload(words: &mut [u32], offset: usize) -> Reply<()> {
    caught(|| Ok(probe::clear(words, offset)))
}

/// Given: `write_message_header_data`.
pub fn headers(words: &mut [u32], size: usize) -> Reply<()> {
    caught(|| Ok(probe::headers(words, size)))
}

/// Given: `set_format_fields`.
pub fn set_formats(words: &mut [u32]) -> Reply<()> {
    caught(|| Ok(probe::formats(words)))
}

/// Given: `TextWriteStrProperty::write`, into words that have room or not.
pub fn put_text(words: &mut [u32], text: &str, offset: usize) -> Reply<()> {
    caught(|| Ok(probe::put_text(words, text, offset)))
}

/// The parts of a word, by width.
#[derive(Clone, Copy, Debug, PartialEq, Eq)]
pub enum Part {
    Bit,
    Crumb,
    Nibble,
    Septet,
    Octet,
    Word,
}

pub const PARTS: [Part; 6] = [Part::Bit, Part::Crumb, Part::Nibble, Part::Septet, Part::Octet, Part::Word];

/// Given: the reading `BitOps` of u32.
pub fn part(of: Part, word: u32, index: usize) -> Reply<u32> {
    caught(|| {
        Ok(match of {
            Part::Bit => word.bit(index) as u32,
            Part::Crumb => u32::from(word.crumb(index)),
            Part::Nibble => u32::from(word.nibble(index)),
            Part::Septet => u32::from(word.septet(index)),
            Part::Octet => word.octet(index) as u32,
            Part::Word => word.word(index) as u32,
        })
    })
}

/// Given: the setting `BitOps` of u32. A number that the part's type does not hold is an error, by the types of `ux`.
pub fn set_part(of: Part, word: u32, index: usize, v: u32) -> Reply<u32> {
    caught(|| {
        let mut word = word;
        match of {
            Part::Bit => word.set_bit(index, flag(v)?),
            Part::Crumb => word.set_crumb(index, u2::try_from(v).map_err(|_| NO_SUCH_NUMBER)?),
            Part::Nibble => word.set_nibble(index, u4::try_from(v).map_err(|_| NO_SUCH_NUMBER)?),
            Part::Septet => word.set_septet(index, septet(v)?),
            Part::Octet => word.set_octet(index, byte(v)?),
            Part::Word => word.set_word(index, u16::try_from(v).map_err(|_| NO_SUCH_NUMBER)?),
        };
        Ok(word)
    })
}
