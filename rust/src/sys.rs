//! The library's functions and structs, as in c/frayedbin.h, made safe: the only unsafe code.
//!
//! Every call takes any slice and any numbers, ends with an answer, keeps no pointer and writes
//! only to the slice that it is lent to write to. An empty Rust slice has a pointer that is
//! aligned and not null, which is more than the library asks of one. What an answer's numbers mean
//! is said in refusal.rs.

#![allow(unsafe_code)]

use std::ptr;

pub const FOUND_END: u32 = 0;
pub const FOUND_OTHER: u32 = 1;

/// A record as it crosses.
#[repr(C)]
#[derive(Clone, Copy, Debug, PartialEq, Eq, Hash)]
pub struct Numbers {
    pub status: u32,
    pub packets: usize,
    pub number: [u32; 9],
    pub reserved: [u32; 5],
}

#[repr(C)]
pub struct Answer {
    pub refusal: u32,
    pub place: usize,
}

#[repr(C)]
pub struct RecordAnswer {
    pub refusal: u32,
    pub place: usize,
    pub record: Numbers,
}

#[repr(C)]
pub struct WalkAnswer {
    pub found: u32,
    pub refusal: u32,
    pub place: usize,
    pub ump_type: u32,
    pub size: usize,
    pub next: usize,
    pub record: Numbers,
}

#[repr(C)]
pub struct PacketAnswer {
    pub refusal: u32,
    pub place: usize,
    pub format: u32,
    pub word: [u32; 4],
}

#[repr(C)]
pub struct SizeAnswer {
    pub refusal: u32,
    pub place: usize,
    pub words: usize,
}

#[repr(C)]
pub struct TextAnswer {
    pub refusal: u32,
    pub place: usize,
    pub length: usize,
}

#[repr(C)]
pub struct StepAnswer {
    pub byte: u32,
    pub packet: usize,
    pub byte_number: usize,
}

extern "C" {
    fn frayedbin_read(words: *const u32, length: usize) -> RecordAnswer;
    fn frayedbin_walk(words: *const u32, length: usize, position: usize) -> WalkAnswer;
    fn frayedbin_words_of_type(ump_type: u32) -> usize;
    fn frayedbin_packet(words: *const u32, length: usize) -> PacketAnswer;
    fn frayedbin_message_size(words: *const u32, length: usize) -> SizeAnswer;
    fn frayedbin_text(words: *const u32, length: usize, out: *mut u8, room: usize) -> TextAnswer;
    fn frayedbin_next_byte(
        words: *const u32,
        length: usize,
        packet: usize,
        byte_number: usize,
    ) -> StepAnswer;
    fn frayedbin_list(bytes: *const u8, length: usize, out: *mut u8, room: usize) -> usize;
    fn frayedbin_fresh(words: *mut u32, length: usize, status: u32) -> Answer;
    fn frayedbin_write(words: *mut u32, length: usize, record: Numbers) -> Answer;
    fn frayedbin_refusal_text(refusal: u32, out: *mut u8, room: usize) -> usize;
    fn frayedbin_kind_name(status: u32, out: *mut u8, room: usize) -> usize;
}

#[inline]
pub fn read(words: &[u32]) -> RecordAnswer {
    // SAFETY: a slice's pointer and length, lent for the call.
    unsafe { frayedbin_read(words.as_ptr(), words.len()) }
}

#[inline]
pub fn walk(words: &[u32], position: usize) -> WalkAnswer {
    // SAFETY: a slice's pointer and length, lent for the call.
    unsafe { frayedbin_walk(words.as_ptr(), words.len(), position) }
}

#[inline]
pub fn words_of_type(ump_type: u32) -> usize {
    // SAFETY: numbers alone cross.
    unsafe { frayedbin_words_of_type(ump_type) }
}

#[inline]
pub fn packet(words: &[u32]) -> PacketAnswer {
    // SAFETY: a slice's pointer and length, lent for the call.
    unsafe { frayedbin_packet(words.as_ptr(), words.len()) }
}

#[inline]
pub fn message_size(words: &[u32]) -> SizeAnswer {
    // SAFETY: a slice's pointer and length, lent for the call.
    unsafe { frayedbin_message_size(words.as_ptr(), words.len()) }
}

/// The whole text of a message, in a vector with room for so many bytes; none where it is refused.
#[inline]
pub fn text(words: &[u32], room: usize) -> Vec<u8> {
    let mut out = Vec::with_capacity(room);
    // SAFETY: a slice's pointer and length, and the room of a vector that nothing else holds.
    let answer = unsafe { frayedbin_text(words.as_ptr(), words.len(), out.as_mut_ptr(), room) };
    if answer.refusal == 0 {
        // SAFETY: the library has written so many bytes, and never more than there is room for.
        unsafe { out.set_len(answer.length.min(room)) };
    }
    out
}

#[inline]
pub fn next_byte(words: &[u32], packet: usize, byte_number: usize) -> StepAnswer {
    // SAFETY: a slice's pointer and length, lent for the call.
    unsafe { frayedbin_next_byte(words.as_ptr(), words.len(), packet, byte_number) }
}

/// How many bytes of `out` the listing took.
pub fn list(bytes: &[u8], out: &mut [u8]) -> usize {
    // SAFETY: two slices' pointers and lengths, lent for the call; they do not overlap.
    unsafe { frayedbin_list(bytes.as_ptr(), bytes.len(), out.as_mut_ptr(), out.len()) }
}

#[inline]
pub fn fresh(words: &mut [u32], status: u32) -> Answer {
    // SAFETY: a slice's pointer and length, lent for the call.
    unsafe { frayedbin_fresh(words.as_mut_ptr(), words.len(), status) }
}

#[inline]
pub fn write(words: &mut [u32], record: Numbers) -> Answer {
    // SAFETY: a slice's pointer and length, lent for the call.
    unsafe { frayedbin_write(words.as_mut_ptr(), words.len(), record) }
}

/// The record of a fresh message. The crate has it as a constant, and holds that to this.
#[cfg(test)]
pub fn record_fresh(status: u32) -> RecordAnswer {
    extern "C" {
        fn frayedbin_record_fresh(status: u32) -> RecordAnswer;
    }
    // SAFETY: a number alone crosses.
    unsafe { frayedbin_record_fresh(status) }
}

/// The sentence of a refusal; empty for a number that is none.
pub fn refusal_text(refusal: u32) -> String {
    // SAFETY: a slice's pointer and length, lent for the call.
    said(|out| unsafe { frayedbin_refusal_text(refusal, out.as_mut_ptr(), out.len()) })
}

/// The name of a kind, as the listing prints it; empty for a status of no kind.
pub fn kind_name(status: u32) -> String {
    // SAFETY: a slice's pointer and length, lent for the call.
    said(|out| unsafe { frayedbin_kind_name(status, out.as_mut_ptr(), out.len()) })
}

/// What a call writes that tells its whole length, and ends with a zero byte.
fn said(call: impl Fn(&mut [u8]) -> usize) -> String {
    let length = call(&mut []);
    let mut bytes = vec![0; length + 1];
    call(&mut bytes);
    bytes.truncate(length);
    String::from_utf8(bytes).unwrap_or_default()
}

/// The first numbers of an answer, and zeros after them, for a caller who keeps them.
///
/// Each is read by itself: the library has just written them one by one, and the processor waits
/// where numbers that were written apart are read at once.
#[inline]
pub fn kept<const N: usize>(numbers: &[u32; N], count: usize) -> [u32; N] {
    let mut kept = [0; N];
    for (to, from) in kept.iter_mut().zip(numbers).take(count) {
        // SAFETY: a reference to a number.
        *to = unsafe { ptr::read_volatile(from) };
    }
    kept
}

/// The numbers of an answer, for a caller who may look at a few: named one by one, so that the
/// compiler leaves out the others.
#[inline]
pub fn looked_at(numbers: &[u32; 9]) -> [u32; 9] {
    let [a, b, c, d, e, f, g, h, i] = *numbers;
    [a, b, c, d, e, f, g, h, i]
}

/// A safe function for each setting of one value on words.
macro_rules! on_words {
    ($($name:ident($type:ty);)+) => {
        $(#[inline]
        pub fn $name(words: &mut [u32], value: $type) -> Answer {
            extern "C" {
                fn $name(words: *mut u32, length: usize, value: $type) -> Answer;
            }
            // SAFETY: a slice's pointer and length, lent for the call.
            unsafe { $name(words.as_mut_ptr(), words.len(), value) }
        })+
    };
}

/// A safe function for each setting of a text on words.
macro_rules! text_on_words {
    ($($name:ident;)+) => {
        $(#[inline]
        pub fn $name(words: &mut [u32], text: &[u8]) -> Answer {
            extern "C" {
                fn $name(words: *mut u32, length: usize, text: *const u8, size: usize) -> Answer;
            }
            // SAFETY: two slices' pointers and lengths, lent for the call; they do not overlap.
            unsafe { $name(words.as_mut_ptr(), words.len(), text.as_ptr(), text.len()) }
        })+
    };
}

/// A safe function for each setting of one value on a record.
macro_rules! on_record {
    ($($name:ident($type:ty);)+) => {
        $(#[inline]
        pub fn $name(record: Numbers, value: $type) -> RecordAnswer {
            extern "C" {
                fn $name(record: Numbers, value: $type) -> RecordAnswer;
            }
            // SAFETY: numbers alone cross.
            unsafe { $name(record, value) }
        })+
    };
}

on_words! {
    frayedbin_endpoint_discovery_set_ump_version_major(u32);
    frayedbin_endpoint_discovery_set_ump_version_minor(u32);
    frayedbin_endpoint_discovery_set_request_endpoint_info(bool);
    frayedbin_endpoint_discovery_set_request_device_identity(bool);
    frayedbin_endpoint_discovery_set_request_endpoint_name(bool);
    frayedbin_endpoint_discovery_set_request_product_instance_id(bool);
    frayedbin_endpoint_discovery_set_request_stream_configuration(bool);
    frayedbin_endpoint_info_set_ump_version_major(u32);
    frayedbin_endpoint_info_set_ump_version_minor(u32);
    frayedbin_endpoint_info_set_static_function_blocks(bool);
    frayedbin_endpoint_info_set_supports_midi2_protocol(bool);
    frayedbin_endpoint_info_set_supports_midi1_protocol(bool);
    frayedbin_endpoint_info_set_supports_receiving_jr_timestamps(bool);
    frayedbin_endpoint_info_set_supports_sending_jr_timestamps(bool);
    frayedbin_endpoint_info_set_number_of_function_blocks(u32);
    frayedbin_device_identity_set_device_family(u32);
    frayedbin_device_identity_set_device_family_model_number(u32);
    frayedbin_function_block_info_set_active(bool);
    frayedbin_function_block_info_set_function_block_number(u32);
    frayedbin_function_block_info_set_ui_hint(u32);
    frayedbin_function_block_info_set_midi1_port(u32);
    frayedbin_function_block_info_set_direction(u32);
    frayedbin_function_block_info_set_first_group(u32);
    frayedbin_function_block_info_set_number_of_groups_spanned(u32);
    frayedbin_function_block_info_set_midi_ci_version(u32);
    frayedbin_function_block_info_set_max_number_of_midi_ci_streams(u32);
    frayedbin_function_block_name_set_function_block(u32);
}

text_on_words! {
    frayedbin_endpoint_name_set_name;
    frayedbin_product_instance_id_set_id;
    frayedbin_function_block_name_set_name;
}

on_record! {
    frayedbin_record_set_ump_version_major(u32);
    frayedbin_record_set_ump_version_minor(u32);
    frayedbin_record_set_request_endpoint_info(bool);
    frayedbin_record_set_request_device_identity(bool);
    frayedbin_record_set_request_endpoint_name(bool);
    frayedbin_record_set_request_product_instance_id(bool);
    frayedbin_record_set_request_stream_configuration(bool);
    frayedbin_record_set_static_function_blocks(bool);
    frayedbin_record_set_supports_midi2_protocol(bool);
    frayedbin_record_set_supports_midi1_protocol(bool);
    frayedbin_record_set_supports_receiving_jr_timestamps(bool);
    frayedbin_record_set_supports_sending_jr_timestamps(bool);
    frayedbin_record_set_number_of_function_blocks(u32);
    frayedbin_record_set_device_family(u32);
    frayedbin_record_set_device_family_model_number(u32);
    frayedbin_record_set_active(bool);
    frayedbin_record_set_function_block_number(u32);
    frayedbin_record_set_ui_hint(u32);
    frayedbin_record_set_midi1_port(u32);
    frayedbin_record_set_direction(u32);
    frayedbin_record_set_first_group(u32);
    frayedbin_record_set_number_of_groups_spanned(u32);
    frayedbin_record_set_midi_ci_version(u32);
    frayedbin_record_set_max_number_of_midi_ci_streams(u32);
    frayedbin_record_set_function_block(u32);
}

#[inline]
pub fn frayedbin_device_identity_set_device_manufacturer(
    words: &mut [u32],
    value: [u32; 3],
) -> Answer {
    extern "C" {
        fn frayedbin_device_identity_set_device_manufacturer(
            words: *mut u32,
            length: usize,
            a: u32,
            b: u32,
            c: u32,
        ) -> Answer;
    }
    let [a, b, c] = value;
    // SAFETY: a slice's pointer and length, lent for the call.
    unsafe {
        frayedbin_device_identity_set_device_manufacturer(words.as_mut_ptr(), words.len(), a, b, c)
    }
}

#[inline]
pub fn frayedbin_device_identity_set_software_version(
    words: &mut [u32],
    value: [u32; 4],
) -> Answer {
    extern "C" {
        fn frayedbin_device_identity_set_software_version(
            words: *mut u32,
            length: usize,
            a: u32,
            b: u32,
            c: u32,
            d: u32,
        ) -> Answer;
    }
    let [a, b, c, d] = value;
    // SAFETY: a slice's pointer and length, lent for the call.
    unsafe {
        frayedbin_device_identity_set_software_version(words.as_mut_ptr(), words.len(), a, b, c, d)
    }
}

#[inline]
pub fn frayedbin_record_set_device_manufacturer(record: Numbers, value: [u32; 3]) -> RecordAnswer {
    extern "C" {
        fn frayedbin_record_set_device_manufacturer(
            record: Numbers,
            a: u32,
            b: u32,
            c: u32,
        ) -> RecordAnswer;
    }
    let [a, b, c] = value;
    // SAFETY: numbers alone cross.
    unsafe { frayedbin_record_set_device_manufacturer(record, a, b, c) }
}

#[inline]
pub fn frayedbin_record_set_software_version(record: Numbers, value: [u32; 4]) -> RecordAnswer {
    extern "C" {
        fn frayedbin_record_set_software_version(
            record: Numbers,
            a: u32,
            b: u32,
            c: u32,
            d: u32,
        ) -> RecordAnswer;
    }
    let [a, b, c, d] = value;
    // SAFETY: numbers alone cross.
    unsafe { frayedbin_record_set_software_version(record, a, b, c, d) }
}

#[cfg(test)]
mod tests {
    use super::*;
    use std::mem::size_of;

    /// The version of c/frayedbin.h that this file says.
    #[test]
    fn the_library_has_the_version_of_this_file() {
        extern "C" {
            fn frayedbin_version() -> u32;
        }
        // SAFETY: a number alone crosses.
        assert_eq!(unsafe { frayedbin_version() }, 0x00_03_00);
    }

    /// The sizes that a C compiler for x86-64 gives the structs of c/frayedbin.h.
    #[test]
    fn structs_have_the_sizes_of_c() {
        assert_eq!(size_of::<Numbers>(), 72);
        assert_eq!(size_of::<Answer>(), 16);
        assert_eq!(size_of::<RecordAnswer>(), 88);
        assert_eq!(size_of::<WalkAnswer>(), 112);
        assert_eq!(size_of::<PacketAnswer>(), 40);
        assert_eq!(size_of::<SizeAnswer>(), 24);
        assert_eq!(size_of::<TextAnswer>(), 24);
        assert_eq!(size_of::<StepAnswer>(), 24);
    }
}
