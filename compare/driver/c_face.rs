//! The library's structs and calls, as c/frayedbin.h has them.

// Each program makes some of the calls.
#![allow(dead_code)]

#[repr(C)]
pub struct Record {
    pub status: u32,
    pub packets: usize,
    pub number: [u32; 9],
    pub reserved: [u32; 5],
}

#[repr(C)]
pub struct Done {
    pub refusal: u32,
    pub place: usize,
}

#[repr(C)]
pub struct ReadAnswer {
    pub refusal: u32,
    pub place: usize,
    pub record: Record,
}

#[repr(C)]
pub struct WalkAnswer {
    pub found: u32,
    pub refusal: u32,
    pub place: usize,
    pub ump_type: u32,
    pub size: usize,
    pub next: usize,
    pub record: Record,
}

#[repr(C)]
pub struct PacketAnswer {
    pub refusal: u32,
    pub place: usize,
    pub format: u32,
    pub word: [u32; 4],
}

#[repr(C)]
pub struct SizeAnswer {
    pub refusal: u32,
    pub place: usize,
    pub words: usize,
}

#[repr(C)]
pub struct StepAnswer {
    pub byte: u32,
    pub packet: usize,
    pub byte_number: usize,
}

#[repr(C)]
pub struct TextAnswer {
    pub refusal: u32,
    pub place: usize,
    pub length: usize,
}

pub const FOUND_END: u32 = 0;
pub const FOUND_OTHER: u32 = 1;
pub const FOUND_MESSAGE: u32 = 2;

extern "C" {
    pub fn frayedbin_read(words: *const u32, length: usize) -> ReadAnswer;
    pub fn frayedbin_walk(words: *const u32, length: usize, position: usize) -> WalkAnswer;
    pub fn frayedbin_packet(words: *const u32, length: usize) -> PacketAnswer;
    pub fn frayedbin_message_size(words: *const u32, length: usize) -> SizeAnswer;
    pub fn frayedbin_next_byte(words: *const u32, length: usize, packet: usize, byte: usize) -> StepAnswer;
    pub fn frayedbin_text(words: *const u32, length: usize, out: *mut u8, room: usize) -> TextAnswer;
    pub fn frayedbin_fresh(words: *mut u32, length: usize, status: u32) -> Done;
    pub fn frayedbin_endpoint_name_set_name(words: *mut u32, length: usize, text: *const u8, bytes: usize) -> Done;
    pub fn frayedbin_product_instance_id_set_id(words: *mut u32, length: usize, text: *const u8, bytes: usize) -> Done;
    pub fn frayedbin_function_block_name_set_name(
        words: *mut u32,
        length: usize,
        text: *const u8,
        bytes: usize,
    ) -> Done;
    fn frayedbin_device_identity_set_device_manufacturer(
        words: *mut u32,
        length: usize,
        a: u32,
        b: u32,
        c: u32,
    ) -> Done;
    fn frayedbin_device_identity_set_software_version(
        words: *mut u32,
        length: usize,
        a: u32,
        b: u32,
        c: u32,
        d: u32,
    ) -> Done;
}

/// Each setting of one value, by the kind's status and the field's number there: its declaration, and its call. A flag is a bool
/// in the call, and other numbers cannot be handed over.
macro_rules! settings_of_one_value {
    ($(($status:literal, $field:literal) $name:ident($type:ident);)+) => {
        extern "C" {
            $(pub fn $name(words: *mut u32, length: usize, v: $type) -> Done;)+
        }

        pub fn is_flag(status: u16, field: usize) -> bool {
            match (status, field) {
                $(($status, $field) => stringify!($type) == "bool",)+
                _ => false,
            }
        }

        unsafe fn set_one(status: u16, field: usize, v: u32, at: *mut u32, length: usize) -> Option<Done> {
            match (status, field) {
                $(($status, $field) => Some($name(at, length, settings_of_one_value!(@handed v as $type))),)+
                _ => None,
            }
        }
    };
    (@handed $v:ident as bool) => { $v == 1 };
    (@handed $v:ident as u32) => { $v };
}

settings_of_one_value! {
    (0x00, 0) frayedbin_endpoint_discovery_set_ump_version_major(u32);
    (0x00, 1) frayedbin_endpoint_discovery_set_ump_version_minor(u32);
    (0x00, 2) frayedbin_endpoint_discovery_set_request_endpoint_info(bool);
    (0x00, 3) frayedbin_endpoint_discovery_set_request_device_identity(bool);
    (0x00, 4) frayedbin_endpoint_discovery_set_request_endpoint_name(bool);
    (0x00, 5) frayedbin_endpoint_discovery_set_request_product_instance_id(bool);
    (0x00, 6) frayedbin_endpoint_discovery_set_request_stream_configuration(bool);
    (0x01, 0) frayedbin_endpoint_info_set_ump_version_major(u32);
    (0x01, 1) frayedbin_endpoint_info_set_ump_version_minor(u32);
    (0x01, 2) frayedbin_endpoint_info_set_static_function_blocks(bool);
    (0x01, 3) frayedbin_endpoint_info_set_supports_midi2_protocol(bool);
    (0x01, 4) frayedbin_endpoint_info_set_supports_midi1_protocol(bool);
    (0x01, 5) frayedbin_endpoint_info_set_supports_receiving_jr_timestamps(bool);
    (0x01, 6) frayedbin_endpoint_info_set_supports_sending_jr_timestamps(bool);
    (0x01, 7) frayedbin_endpoint_info_set_number_of_function_blocks(u32);
    (0x02, 1) frayedbin_device_identity_set_device_family(u32);
    (0x02, 2) frayedbin_device_identity_set_device_family_model_number(u32);
    (0x11, 0) frayedbin_function_block_info_set_active(bool);
    (0x11, 1) frayedbin_function_block_info_set_function_block_number(u32);
    (0x11, 2) frayedbin_function_block_info_set_ui_hint(u32);
    (0x11, 3) frayedbin_function_block_info_set_midi1_port(u32);
    (0x11, 4) frayedbin_function_block_info_set_direction(u32);
    (0x11, 5) frayedbin_function_block_info_set_first_group(u32);
    (0x11, 6) frayedbin_function_block_info_set_number_of_groups_spanned(u32);
    (0x11, 7) frayedbin_function_block_info_set_midi_ci_version(u32);
    (0x11, 8) frayedbin_function_block_info_set_max_number_of_midi_ci_streams(u32);
    (0x12, 0) frayedbin_function_block_name_set_function_block(u32);
}

/// The setting of a field, by kind and number.
pub unsafe fn set(status: u16, field: usize, v: &[u32; 4], at: *mut u32, length: usize) -> Option<Done> {
    match (status, field) {
        (0x02, 0) => Some(frayedbin_device_identity_set_device_manufacturer(at, length, v[0], v[1], v[2])),
        (0x02, 3) => Some(frayedbin_device_identity_set_software_version(at, length, v[0], v[1], v[2], v[3])),
        _ => set_one(status, field, v[0], at, length),
    }
}
