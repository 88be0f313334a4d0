//! The record that a message keeps is the one that is read from its words, after every setting, and
//! the same settings on a record alone give it too.

use frayedbin::{
    Buffer, DeviceIdentity, Direction, EndpointDiscovery, EndpointInfo, EndpointName, Error,
    FunctionBlockInfo, FunctionBlockName, Kind, Midi1Port, ProductInstanceId, Record, UiHint,
    UmpStream,
};

/// Numbers that look random, the same in every run.
struct Dice(u64);

impl Dice {
    /// A number below a limit.
    fn below(&mut self, limit: usize) -> usize {
        self.0 ^= self.0 << 13;
        self.0 ^= self.0 >> 7;
        self.0 ^= self.0 << 17;
        (self.0 >> 33) as usize % limit
    }

    fn flag(&mut self) -> bool {
        self.below(2) == 1
    }

    fn octet(&mut self) -> u8 {
        self.below(256) as u8
    }

    /// Octets of which one in thirty-two is above 127, the largest of most fields.
    fn septets<const N: usize>(&mut self) -> [u8; N] {
        [(); N].map(|()| self.below(132) as u8)
    }

    /// Mostly short texts of characters of one to four bytes, with zeros; a few are refused.
    fn text(&mut self) -> Vec<u8> {
        let limit = [3, 20, 60, 1000][self.below(4)];
        let length = self.below(limit);
        let characters = ["a", "\0", "é", "日", "🎹", "b c"];
        let text: String = (0..length)
            .map(|_| characters[self.below(characters.len())])
            .collect();
        let mut bytes = text.into_bytes();
        if self.below(20) == 0 {
            bytes.push(0xFF);
        }
        bytes
    }
}

/// The settings of a run.
const SETTINGS: usize = 5_000;

/// Makes a setting on a message, any of its kind's.
type Setting<M> = fn(&mut M, &mut Dice) -> Result<(), Error>;

/// Makes many settings, holds the record and the words of each message against a fresh read, and
/// gives how many settings were refused.
fn hold<B: AsRef<[u32]> + Clone, M>(
    mut message: M,
    set: Setting<M>,
    look: fn(&M) -> UmpStream<B>,
    seed: u64,
) -> usize {
    let mut dice = Dice(seed);
    let mut refused = 0;
    for step in 0..SETTINGS {
        let before = look(&message);
        let answer = set(&mut message, &mut dice);
        let after = look(&message);
        if answer.is_err() {
            refused += 1;
            assert_eq!(after.record(), before.record(), "step {step}");
            assert_eq!(after, before, "step {step}");
        }
        let read = UmpStream::read(after.data()).unwrap();
        assert_eq!(after.record(), read.record(), "step {step}");
        assert_eq!(format!("{after:?}"), format!("{read:?}"), "step {step}");
    }
    refused
}

/// That many settings of a run were refused, and many more made.
fn some(refused: usize) {
    assert!((100..SETTINGS / 2).contains(&refused), "{refused} refused");
}

/// Makes a setting on a message and on a record.
macro_rules! set {
    ($both:ident.$name:ident($value:expr)) => {{
        let value = $value;
        let answer = $both.0.$name(value);
        match $both.1.$name(value) {
            Ok(record) => $both.1 = record,
            Err(refusal) => assert_eq!(answer, Err(refusal)),
        }
        answer?
    }};
}

/// The message, and that the record beside it is its own.
fn with_record<B: AsRef<[u32]>>(message: impl Into<UmpStream<B>>, record: Record) -> UmpStream<B> {
    let message = message.into();
    assert_eq!(message.record(), record);
    message
}

#[test]
fn endpoint_discovery() {
    let set: Setting<(EndpointDiscovery<[u32; 4]>, Record)> = |m, dice| {
        match dice.below(7) {
            0 => set!(m.set_ump_version_major(dice.octet())),
            1 => set!(m.set_ump_version_minor(dice.octet())),
            2 => set!(m.set_request_endpoint_info(dice.flag())),
            3 => set!(m.set_request_device_identity(dice.flag())),
            4 => set!(m.set_request_endpoint_name(dice.flag())),
            5 => set!(m.set_request_product_instance_id(dice.flag())),
            _ => set!(m.set_request_stream_configuration(dice.flag())),
        }
        Ok(())
    };
    let message = EndpointDiscovery::new([0; 4]).unwrap();
    let both = (message, Record::new(Kind::EndpointDiscovery));
    assert_eq!(hold(both, set, |m| with_record(m.0, m.1), 1), 0);
}

#[test]
fn endpoint_info() {
    let set: Setting<(EndpointInfo<[u32; 4]>, Record)> = |m, dice| {
        match dice.below(8) {
            0 => set!(m.set_ump_version_major(dice.octet())),
            1 => set!(m.set_ump_version_minor(dice.octet())),
            2 => set!(m.set_static_function_blocks(dice.flag())),
            3 => set!(m.set_supports_midi2_protocol(dice.flag())),
            4 => set!(m.set_supports_midi1_protocol(dice.flag())),
            5 => set!(m.set_supports_receiving_jr_timestamps(dice.flag())),
            6 => set!(m.set_supports_sending_jr_timestamps(dice.flag())),
            _ => set!(m.set_number_of_function_blocks(dice.octet())),
        }
        Ok(())
    };
    let message = EndpointInfo::new([0; 4]).unwrap();
    let both = (message, Record::new(Kind::EndpointInfo));
    some(hold(both, set, |m| with_record(m.0, m.1), 2));
}

#[test]
fn device_identity() {
    let set: Setting<(DeviceIdentity<[u32; 4]>, Record)> = |m, dice| {
        match dice.below(4) {
            0 => set!(m.set_device_manufacturer(dice.septets())),
            1 => set!(m.set_device_family(dice.below(20_000) as u16)),
            2 => set!(m.set_device_family_model_number(dice.below(20_000) as u16)),
            _ => set!(m.set_software_version(dice.septets())),
        }
        Ok(())
    };
    let message = DeviceIdentity::new([0; 4]).unwrap();
    let both = (message, Record::new(Kind::DeviceIdentity));
    some(hold(both, set, |m| with_record(m.0, m.1), 3));
}

const DIRECTIONS: [Direction; 3] = [
    Direction::Input,
    Direction::Output,
    Direction::Bidirectional,
];

const PORTS: [Option<Midi1Port>; 3] = [
    None,
    Some(Midi1Port::DontRestrictBandwidth),
    Some(Midi1Port::RestrictBandwidth),
];

const HINTS: [UiHint; 4] = [
    UiHint::Undeclared,
    UiHint::Receiver,
    UiHint::Sender,
    UiHint::SenderReceiver,
];

#[test]
fn function_block_info() {
    let set: Setting<(FunctionBlockInfo<[u32; 4]>, Record)> = |m, dice| {
        match dice.below(9) {
            0 => set!(m.set_active(dice.flag())),
            1 => set!(m.set_function_block_number(dice.octet())),
            2 => set!(m.set_ui_hint(HINTS[dice.below(4)])),
            3 => set!(m.set_midi1_port(PORTS[dice.below(3)])),
            4 => set!(m.set_direction(DIRECTIONS[dice.below(3)])),
            5 => set!(m.set_first_group(dice.below(18) as u8)),
            6 => set!(m.set_number_of_groups_spanned(dice.octet())),
            7 => set!(m.set_midi_ci_version(dice.octet())),
            _ => set!(m.set_max_number_of_midi_ci_streams(dice.octet())),
        }
        Ok(())
    };
    let message = FunctionBlockInfo::new([0; 4]).unwrap();
    let both = (message, Record::new(Kind::FunctionBlockInfo));
    some(hold(both, set, |m| with_record(m.0, m.1), 4));
}

fn hold_endpoint_name<B: Buffer + Clone>(buffer: B, seed: u64) {
    let set: Setting<EndpointName<B>> = |m, dice| m.set_name(dice.text());
    let message = EndpointName::new(buffer).unwrap();
    some(hold(message, set, |m| m.clone().into(), seed));
}

fn hold_id<B: Buffer + Clone>(buffer: B, seed: u64) {
    let set: Setting<ProductInstanceId<B>> = |m, dice| m.set_id(dice.text());
    let message = ProductInstanceId::new(buffer).unwrap();
    some(hold(message, set, |m| m.clone().into(), seed));
}

fn hold_block_name<B: Buffer + Clone>(buffer: B, seed: u64) {
    let set: Setting<FunctionBlockName<B>> = |m, dice| match dice.below(3) {
        0 => Ok(m.set_function_block(dice.octet())?),
        _ => m.set_name(dice.text()),
    };
    let message = FunctionBlockName::new(buffer).unwrap();
    some(hold(message, set, |m| m.clone().into(), seed));
}

#[test]
fn texts_in_an_array() {
    hold_endpoint_name([0; 30], 5);
    hold_id([0; 256], 6);
    hold_block_name([0; 100], 7);
}

#[test]
fn texts_in_a_vector() {
    hold_endpoint_name(Vec::new(), 8);
    hold_id(vec![7; 9], 9);
    hold_block_name(Vec::new(), 10);
}
