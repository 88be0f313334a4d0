//! A probe that answers a discovery: it reads the question, tells what is asked for and its two
//! function blocks, and walks its own answer.

use frayedbin::{
    DeviceIdentity, Direction, EndpointDiscovery, EndpointInfo, EndpointName, Error, Found,
    FunctionBlockInfo, FunctionBlockName, Messages, ProductInstanceId, UiHint, UmpStream,
};

/// A discovery of UMP 1.1 that asks for the endpoint's info, identity, name and instance id.
const QUESTION: [u32; 4] = [0xF000_0101, 0x0000_000F, 0, 0];

fn main() -> Result<(), Error> {
    let answer = answer(&EndpointDiscovery::read(QUESTION)?)?;
    for message in &answer {
        println!("{}", hex(message.data()));
    }
    println!("found:");
    let stream: Vec<u32> = answer.iter().flat_map(UmpStream::data).copied().collect();
    for (position, found) in Messages::new(&stream) {
        println!("{position} {}", told(&found));
    }
    Ok(())
}

/// What is asked for, then each function block.
fn answer(question: &EndpointDiscovery<[u32; 4]>) -> Result<Vec<UmpStream<Vec<u32>>>, Error> {
    let mut answer = Vec::new();
    if question.request_endpoint_info() {
        answer.push(info()?.into());
    }
    if question.request_device_identity() {
        answer.push(identity()?.into());
    }
    if question.request_endpoint_name() {
        let mut name = EndpointName::new(Vec::new())?;
        name.set_name("Frayedbin Bench Probe")?;
        answer.push(name.into());
    }
    if question.request_product_instance_id() {
        let mut id = ProductInstanceId::new(Vec::new())?;
        id.set_id("FB-0001")?;
        answer.push(id.into());
    }
    let (both, out) = (Direction::Bidirectional, Direction::Output);
    let mut keys = block(0, both, UiHint::SenderReceiver)?;
    keys.set_midi_ci_version(2)?;
    answer.push(keys.into());
    answer.push(block_name(0, "Keys")?.into());
    answer.push(block(1, out, UiHint::Sender)?.into());
    answer.push(block_name(1, "Knöpfe & Pads")?.into());
    Ok(answer)
}

fn info() -> Result<EndpointInfo<Vec<u32>>, Error> {
    let mut info = EndpointInfo::new(Vec::new())?;
    info.set_ump_version_major(1)?;
    info.set_ump_version_minor(1)?;
    info.set_static_function_blocks(true)?;
    info.set_number_of_function_blocks(2)?;
    info.set_supports_midi2_protocol(true)?;
    info.set_supports_midi1_protocol(true)?;
    Ok(info)
}

fn identity() -> Result<DeviceIdentity<Vec<u32>>, Error> {
    let mut identity = DeviceIdentity::new(Vec::new())?;
    identity.set_device_manufacturer([0x7D, 0, 0])?;
    identity.set_device_family(1)?;
    identity.set_device_family_model_number(2)?;
    identity.set_software_version([1, 2, 0, 3])?;
    Ok(identity)
}

/// An active block with one group, the one of its number.
fn block(number: u8, way: Direction, hint: UiHint) -> Result<FunctionBlockInfo<Vec<u32>>, Error> {
    let mut block = FunctionBlockInfo::new(Vec::new())?;
    block.set_active(true)?;
    block.set_function_block_number(number)?;
    block.set_direction(way)?;
    block.set_ui_hint(hint)?;
    block.set_first_group(number)?;
    block.set_number_of_groups_spanned(1)?;
    Ok(block)
}

fn block_name(number: u8, text: &str) -> Result<FunctionBlockName<Vec<u32>>, Error> {
    let mut name = FunctionBlockName::new(Vec::new())?;
    name.set_function_block(number)?;
    name.set_name(text)?;
    Ok(name)
}

fn hex(words: &[u32]) -> String {
    let words: Vec<String> = words.iter().map(|word| format!("{word:08X}")).collect();
    words.join(" ")
}

/// What was found, in a line.
fn told(found: &Found<'_>) -> String {
    let message = match found {
        Found::Message(message) => message,
        Found::Other { ump_type, .. } => return format!("other type {ump_type}"),
        Found::Refused { refusal, words } => return format!("{refusal}: {}", hex(words)),
    };
    let kind = message.record().kind();
    match message {
        UmpStream::EndpointName(name) => format!("{kind} \"{}\"", name.name()),
        UmpStream::ProductInstanceId(id) => format!("{kind} \"{}\"", id.id()),
        UmpStream::FunctionBlockName(name) => format!("{kind} \"{}\"", name.name()),
        _ => kind.to_string(),
    }
}
