//! Endpoint info, status 0x01.

use crate::message::{fields, kind};

kind! {
    /// What an endpoint can do.
    ///
    /// ```
    /// use frayedbin::{EndpointInfo, Error};
    ///
    /// let mut info = EndpointInfo::new([0; 4])?;
    /// info.set_ump_version_major(1)?;
    /// info.set_ump_version_minor(1)?;
    /// info.set_static_function_blocks(true)?;
    /// info.set_number_of_function_blocks(4)?;
    /// info.set_supports_midi2_protocol(true)?;
    /// info.set_supports_midi1_protocol(true)?;
    /// assert_eq!(info.data(), [0xF001_0101, 0x8400_0300, 0, 0]);
    /// # Ok::<(), Error>(())
    /// ```
    EndpointInfo
}

fields! {
    EndpointInfo
    /// The major version of UMP that the endpoint speaks.
    0 ump_version_major: u8, set_ump_version_major by frayedbin_endpoint_info_set_ump_version_major;
    /// The minor version of UMP that the endpoint speaks.
    1 ump_version_minor: u8, set_ump_version_minor by frayedbin_endpoint_info_set_ump_version_minor;
    /// Whether its function blocks never change.
    2 static_function_blocks: bool, set_static_function_blocks
        by frayedbin_endpoint_info_set_static_function_blocks;
    /// Whether it supports the MIDI 2.0 protocol.
    3 supports_midi2_protocol: bool, set_supports_midi2_protocol
        by frayedbin_endpoint_info_set_supports_midi2_protocol;
    /// Whether it supports the MIDI 1.0 protocol.
    4 supports_midi1_protocol: bool, set_supports_midi1_protocol
        by frayedbin_endpoint_info_set_supports_midi1_protocol;
    /// Whether it can receive jitter reduction timestamps.
    5 supports_receiving_jr_timestamps: bool, set_supports_receiving_jr_timestamps
        by frayedbin_endpoint_info_set_supports_receiving_jr_timestamps;
    /// Whether it can send jitter reduction timestamps.
    6 supports_sending_jr_timestamps: bool, set_supports_sending_jr_timestamps
        by frayedbin_endpoint_info_set_supports_sending_jr_timestamps;
    /// How many function blocks it has, at most 127.
    7 number_of_function_blocks: u8, set_number_of_function_blocks
        by frayedbin_endpoint_info_set_number_of_function_blocks;
}
