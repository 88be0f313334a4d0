//! MIDI 2.0 endpoint messages of seven kinds, read and written by a proved library.
//!
//! The types have the names of the module `ump_stream` of the crate midi2: [`EndpointDiscovery`],
//! [`EndpointInfo`], [`DeviceIdentity`], [`EndpointName`], [`ProductInstanceId`],
//! [`FunctionBlockInfo`] and [`FunctionBlockName`]. Each is read from anything that gives a slice
//! of words, and written in a [`Buffer`]: an array, a slice, or a `Vec`, which grows. Every call
//! ends with an answer, for any words and any text; what is not right is a [`Refusal`], or an
//! [`Error`] that says more, and then no word has changed. Nothing panics.
//!
//! A message that is made, and read back:
//!
//! ```
//! use frayedbin::{EndpointName, Error, UmpStream};
//!
//! let mut name = EndpointName::new(Vec::new())?;
//! name.set_name("Bench Probe, two packets")?;
//! assert_eq!(name.data().len(), 8);
//!
//! let read = EndpointName::try_from(name.data())?;
//! assert_eq!(read.name(), "Bench Probe, two packets");
//! assert_eq!(UmpStream::read(name.data())?, UmpStream::from(read));
//! # Ok::<(), Error>(())
//! ```
//!
//! A stream is walked with [`Messages`], also while its words arrive, a capture listed with
//! [`list`]; [`words_of_type`] has the size of each message type. A [`Record`] is what a message
//! says apart from its words, and settings can be chained on it. examples/probe.rs answers a
//! discovery, and docs/FROM_MIDI2.md in the repository is for those who know midi2.
//!
//! # Linking
//!
//! The build script links `libfrayedbin.a`, which `rt lib` in the repository's crates/frayedbin
//! makes in out/ there, for x86-64 Linux. Beside a clone in which it was made, a dependency by
//! path finds it:
//!
//! ```toml
//! [dependencies]
//! frayedbin = { path = "../frayedbin/rust" }
//! ```
//!
//! A dependency by git has no library in its copy of the repository. `FRAYEDBIN_LIB_DIR` names
//! the library's folder, for this and wherever else it lies:
//!
//! ```toml
//! [dependencies]
//! frayedbin = { git = "https://example.org/frayedbin.git" }
//! ```
//!
//! ```sh
//! FRAYEDBIN_LIB_DIR=$HOME/frayedbin/crates/frayedbin/out cargo build
//! ```
//!
//! To name it once for a project, in the project's .cargo/config.toml, from the folder that
//! .cargo is in:
//!
//! ```toml
//! [env]
//! FRAYEDBIN_LIB_DIR = { value = "../frayedbin/crates/frayedbin/out", relative = true }
//! ```
//!
//! With `FRAYEDBIN_SKIP_LINK` set nothing is linked: enough for `cargo check`, `clippy` and `doc`
//! on any machine.

#![deny(missing_docs)]
#![deny(unsafe_code)]
#![forbid(unsafe_op_in_unsafe_fn)]

mod buffer;
mod device_identity;
mod endpoint_discovery;
mod endpoint_info;
mod endpoint_name;
mod error;
mod function_block_info;
mod function_block_name;
mod kind;
mod listing;
mod message;
mod packet;
mod product_instance_id;
mod record;
mod refusal;
mod stream;
mod sys;
mod text;
mod value;

pub use buffer::{Buffer, BufferDefault};
pub use device_identity::DeviceIdentity;
pub use endpoint_discovery::EndpointDiscovery;
pub use endpoint_info::EndpointInfo;
pub use endpoint_name::EndpointName;
pub use error::Error;
pub use function_block_info::FunctionBlockInfo;
pub use function_block_name::FunctionBlockName;
pub use kind::{Direction, Kind, Midi1Port, UiHint};
pub use listing::{list, MOST_LISTED_BYTES};
pub use packet::{message_size, packet, Format, Packet, Packets};
pub use product_instance_id::ProductInstanceId;
pub use record::Record;
pub use refusal::Refusal;
pub use stream::{words_of_type, Found, Messages, UmpStream};
pub use text::TextBytesIterator;

/// The names that midi2's module `ump_stream` has too, so that its imports need one word changed.
pub mod ump_stream {
    #[doc(no_inline)]
    pub use crate::{
        DeviceIdentity, Direction, EndpointDiscovery, EndpointInfo, EndpointName, Format,
        FunctionBlockInfo, FunctionBlockName, Midi1Port, Packet, ProductInstanceId,
        TextBytesIterator, UiHint, UmpStream,
    };
}

/// The most packets of a message.
pub const MOST_PACKETS: usize = 64;

/// The most words of a message: a buffer of so many has room for any.
pub const MOST_WORDS: usize = 256;

/// The most bytes of an endpoint name or a product instance id.
pub const MOST_NAME_BYTES: usize = 896;

/// The most bytes of a function block name.
pub const MOST_BLOCK_NAME_BYTES: usize = 832;
