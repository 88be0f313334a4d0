//! Function block info, status 0x11.

use crate::message::{fields, kind};
use crate::{Direction, Midi1Port, UiHint};

kind! {
    /// What a function block is for.
    ///
    /// ```
    /// use frayedbin::{Direction, Error, FunctionBlockInfo, Midi1Port, UiHint};
    ///
    /// let mut info = FunctionBlockInfo::new([0; 4])?;
    /// assert_eq!(info.direction(), Direction::Bidirectional);
    /// info.set_active(true)?;
    /// info.set_function_block_number(3)?;
    /// info.set_ui_hint(UiHint::Receiver)?;
    /// info.set_midi1_port(Some(Midi1Port::RestrictBandwidth))?;
    /// info.set_direction(Direction::Input)?;
    /// info.set_first_group(2)?;
    /// info.set_number_of_groups_spanned(1)?;
    /// assert_eq!(info.data(), [0xF011_8319, 0x0201_0000, 0, 0]);
    /// # Ok::<(), Error>(())
    /// ```
    FunctionBlockInfo
}

fields! {
    FunctionBlockInfo
    /// Whether the block is active.
    0 active: bool, set_active by frayedbin_function_block_info_set_active;
    /// The number of the block, at most 127.
    1 function_block_number: u8, set_function_block_number
        by frayedbin_function_block_info_set_function_block_number;
    /// What users may take the block for.
    2 ui_hint: UiHint, set_ui_hint by frayedbin_function_block_info_set_ui_hint;
    /// Whether the block is a MIDI 1.0 port, and how it takes messages.
    3 midi1_port: Option<Midi1Port>, set_midi1_port by frayedbin_function_block_info_set_midi1_port;
    /// Where the block's messages go.
    4 direction: Direction, set_direction by frayedbin_function_block_info_set_direction;
    /// The first group that the block uses, at most 15.
    5 first_group: u8, set_first_group by frayedbin_function_block_info_set_first_group;
    /// How many groups the block spans.
    6 number_of_groups_spanned: u8, set_number_of_groups_spanned
        by frayedbin_function_block_info_set_number_of_groups_spanned;
    /// The version of MIDI-CI that the block speaks.
    7 midi_ci_version: u8, set_midi_ci_version by frayedbin_function_block_info_set_midi_ci_version;
    /// The most MIDI-CI streams that the block has at a time.
    8 max_number_of_midi_ci_streams: u8, set_max_number_of_midi_ci_streams
        by frayedbin_function_block_info_set_max_number_of_midi_ci_streams;
}
