//! Stand-in for the sentences that the given files name.

pub const ERR_SLICE_TOO_SHORT: &str = "Slice is too short";
pub const ERR_INCORRECT_UMP_MESSAGE_TYPE: &str = "Incorrect ump message type";
