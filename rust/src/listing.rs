//! The listing of a capture.

use crate::sys;

/// The most bytes of a capture that are listed.
pub const MOST_LISTED_BYTES: usize = 32_768;

/// Room for any listing, in bytes.
const ROOM: usize = 139_275;

/// Lists a capture of big-endian words: a line for what stands at each word position, and one
/// for the end. More than [`MOST_LISTED_BYTES`] are listed as `input too long`.
///
/// ```
/// let capture = [0x10, 0xF8, 0, 0, 0xF0, 0x03, 0x41, 0x42, 0, 0, 0, 0, 0, 0, 0, 0, 0, 0, 0, 0, 9];
/// assert_eq!(frayedbin::list(&capture), "0 other 1 1\n1 endpoint-name 1 4142\nend 5 1\n");
/// ```
#[must_use]
pub fn list(bytes: &[u8]) -> String {
    let mut out = vec![0; ROOM];
    let size = sys::list(bytes, &mut out);
    String::from_utf8_lossy(&out[..size.min(ROOM)]).into_owned()
}
