//! Records: what a message says, apart from its words.

use crate::sys::{self, Numbers};
use crate::value::Value;
use crate::{Direction, Kind, Midi1Port, Refusal, UiHint};

/// A message's record: its kind, its packets and its numbers.
///
/// Each setting hands the record back, so they can be chained. A setting that the kind lacks is
/// refusal 13, a number above its field's largest is refusal 12; the record that it was made on
/// is still there, unchanged. A text kind's record holds no text.
///
/// ```
/// use frayedbin::{Kind, Record, Refusal};
///
/// let record = Record::new(Kind::EndpointInfo)
///     .set_ump_version_major(1)?
///     .set_ump_version_minor(1)?
///     .set_static_function_blocks(true)?
///     .set_number_of_function_blocks(4)?
///     .set_supports_midi2_protocol(true)?
///     .set_supports_midi1_protocol(true)?;
/// let mut words = [0; 4];
/// record.write(&mut words)?;
/// assert_eq!(words, [0xF001_0101, 0x8400_0300, 0, 0]);
/// assert_eq!(record.set_first_group(1), Err(Refusal::NoSuchField));
/// # Ok::<(), Refusal>(())
/// ```
#[derive(Clone, Copy, Debug, PartialEq, Eq, Hash)]
#[must_use = "a setting on a record hands it back and changes nothing else"]
pub struct Record {
    kind: Kind,
    numbers: Numbers,
}

/// A method for each setting, with the place of its numbers. A setting that is made changes them
/// alone, so that they are kept and the library's copy of the record is left.
macro_rules! settings {
    ($($(#[$doc:meta])+ $at:literal $name:ident($type:ty) by $call:ident;)+) => {
        impl Record {
            $($(#[$doc])+
            #[inline]
            pub fn $name(mut self, value: $type) -> Result<Record, Refusal> {
                let answer = sys::$call(self.numbers, value.crossed());
                Refusal::check(answer.refusal, answer.place)?;
                value.put(&mut self.numbers.number[$at..]);
                Ok(self)
            })+
        }
    };
}

impl Record {
    /// The record of a fresh message: one packet, and all fields 0 but a block info's direction,
    /// which is [`Direction::Bidirectional`].
    #[inline]
    pub fn new(kind: Kind) -> Record {
        Record::with(kind, 1, Record::fresh_numbers(kind))
    }

    /// The numbers of a fresh message.
    #[inline]
    pub(crate) fn fresh_numbers(kind: Kind) -> [u32; 9] {
        let mut number = [0; 9];
        if kind == Kind::FunctionBlockInfo {
            number[4] = Direction::default().crossed();
        }
        number
    }

    /// A record of a kind, with the numbers after its last 0.
    #[inline]
    pub(crate) fn with(kind: Kind, packets: usize, number: [u32; 9]) -> Record {
        let status = kind.status().into();
        let reserved = [0; 5];
        Record {
            kind,
            numbers: Numbers {
                status,
                packets,
                number,
                reserved,
            },
        }
    }

    /// The message's kind.
    #[inline]
    #[must_use]
    pub fn kind(&self) -> Kind {
        self.kind
    }

    /// How many packets the message takes, 1 to 64.
    #[inline]
    #[must_use]
    pub fn packets(&self) -> usize {
        self.numbers.packets
    }

    /// The numbers of the kind's fields, in the order of its methods: a flag is 0 or 1, a
    /// choice is its code, a manufacturer is three numbers and a software version four.
    #[inline]
    #[must_use]
    pub fn numbers(&self) -> &[u32] {
        &self.numbers.number[..self.kind.numbers()]
    }

    /// Writes the record as a fresh message with its fields. A text kind is refusal 13, and a
    /// buffer with no whole packet refusal 14.
    #[inline]
    pub fn write(&self, words: &mut [u32]) -> Result<(), Refusal> {
        sys::write(words, self.numbers).done()
    }
}

settings! {
    /// Sets the major version of UMP, of an endpoint discovery or an endpoint info.
    0 set_ump_version_major(u8) by frayedbin_record_set_ump_version_major;
    /// Sets the minor version of UMP, of an endpoint discovery or an endpoint info.
    1 set_ump_version_minor(u8) by frayedbin_record_set_ump_version_minor;
    /// Sets whether an endpoint discovery asks for the endpoint info.
    2 set_request_endpoint_info(bool) by frayedbin_record_set_request_endpoint_info;
    /// Sets whether an endpoint discovery asks for the device identity.
    3 set_request_device_identity(bool) by frayedbin_record_set_request_device_identity;
    /// Sets whether an endpoint discovery asks for the endpoint name.
    4 set_request_endpoint_name(bool) by frayedbin_record_set_request_endpoint_name;
    /// Sets whether an endpoint discovery asks for the product instance id.
    5 set_request_product_instance_id(bool) by frayedbin_record_set_request_product_instance_id;
    /// Sets whether an endpoint discovery asks for the stream configuration.
    6 set_request_stream_configuration(bool) by frayedbin_record_set_request_stream_configuration;
    /// Sets whether an endpoint's function blocks never change.
    2 set_static_function_blocks(bool) by frayedbin_record_set_static_function_blocks;
    /// Sets whether an endpoint supports the MIDI 2.0 protocol.
    3 set_supports_midi2_protocol(bool) by frayedbin_record_set_supports_midi2_protocol;
    /// Sets whether an endpoint supports the MIDI 1.0 protocol.
    4 set_supports_midi1_protocol(bool) by frayedbin_record_set_supports_midi1_protocol;
    /// Sets whether an endpoint can receive jitter reduction timestamps.
    5 set_supports_receiving_jr_timestamps(bool)
        by frayedbin_record_set_supports_receiving_jr_timestamps;
    /// Sets whether an endpoint can send jitter reduction timestamps.
    6 set_supports_sending_jr_timestamps(bool) by frayedbin_record_set_supports_sending_jr_timestamps;
    /// Sets an endpoint's number of function blocks, at most 127.
    7 set_number_of_function_blocks(u8) by frayedbin_record_set_number_of_function_blocks;
    /// Sets a device's manufacturer, three numbers of at most 127.
    0 set_device_manufacturer([u8; 3]) by frayedbin_record_set_device_manufacturer;
    /// Sets a device's family, at most 16,383.
    3 set_device_family(u16) by frayedbin_record_set_device_family;
    /// Sets a device's model within the family, at most 16,383.
    4 set_device_family_model_number(u16) by frayedbin_record_set_device_family_model_number;
    /// Sets a device's software version, four numbers of at most 127.
    5 set_software_version([u8; 4]) by frayedbin_record_set_software_version;
    /// Sets whether a function block is active.
    0 set_active(bool) by frayedbin_record_set_active;
    /// Sets the number of the block that a function block info is about, at most 127.
    1 set_function_block_number(u8) by frayedbin_record_set_function_block_number;
    /// Sets what users may take a function block for.
    2 set_ui_hint(UiHint) by frayedbin_record_set_ui_hint;
    /// Sets whether a function block is a MIDI 1.0 port.
    3 set_midi1_port(Option<Midi1Port>) by frayedbin_record_set_midi1_port;
    /// Sets where a function block's messages go.
    4 set_direction(Direction) by frayedbin_record_set_direction;
    /// Sets a function block's first group, at most 15.
    5 set_first_group(u8) by frayedbin_record_set_first_group;
    /// Sets how many groups a function block spans.
    6 set_number_of_groups_spanned(u8) by frayedbin_record_set_number_of_groups_spanned;
    /// Sets a function block's MIDI-CI version.
    7 set_midi_ci_version(u8) by frayedbin_record_set_midi_ci_version;
    /// Sets the most MIDI-CI streams that a function block has at a time.
    8 set_max_number_of_midi_ci_streams(u8) by frayedbin_record_set_max_number_of_midi_ci_streams;
    /// Sets the number of the block that a function block name is about.
    0 set_function_block(u8) by frayedbin_record_set_function_block;
}

#[cfg(test)]
mod tests {
    use super::*;

    /// A new record is what the library says of a fresh message.
    #[test]
    fn new_records_are_the_librarys() {
        for kind in (0..=0x3FF).filter_map(|status| Kind::try_from(status).ok()) {
            let answer = sys::record_fresh(kind.status().into());
            assert_eq!(answer.refusal, 0);
            assert_eq!(Record::new(kind).numbers, answer.record);
        }
        assert_eq!(sys::record_fresh(0x3FF).refusal, 5);
    }
}
