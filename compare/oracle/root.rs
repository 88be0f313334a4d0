//! The oracle: the given Rust files of midi2 0.11.1 over stand-ins for what is not given, and plain functions over both.
#![cfg_attr(before_1_65, feature(let_else, generic_associated_types))]
#![allow(dead_code, unused_imports)]
// What a newer compiler calls private_interfaces and private_bounds, an older calls private_in_public.
#![allow(unknown_lints, renamed_and_removed_lints, private_interfaces, private_bounds, private_in_public)]

/// A text kind whose file is not given: the given text properties at offset 0.
macro_rules! text_kind {
    ($name:ident, $status:literal) => {
        use crate::{detail::common_properties, ump_stream, ump_stream::UMP_MESSAGE_TYPE};

        pub(crate) const STATUS: u16 = $status;

        #[midi2_proc::generate_message(Via(ump_stream::UmpStream), MinSizeUmp(4))]
        struct $name {
            #[property(common_properties::UmpMessageTypeProperty<UMP_MESSAGE_TYPE>)]
            ump_type: (),
            #[property(ump_stream::StatusProperty<STATUS>)]
            status: (),
            #[property(ump_stream::ConsistentFormatsProperty)]
            consistent_formats: (),
            #[property(ump_stream::TextWriteStrProperty<0>)]
            #[writeonly]
            #[resize]
            name: &str,
            #[property(ump_stream::TextReadBytesProperty)]
            #[readonly]
            name_bytes: ump_stream::TextBytesIterator,
            #[property(ump_stream::TextReadStringProperty)]
            #[readonly]
            name: std::string::String,
        }

        impl<B: crate::buffer::Ump> crate::traits::Size<B> for $name<B> {
            fn size(&self) -> usize {
                ump_stream::message_size(&self.0)
            }
        }
    };
}

/// A kind that is not compared.
macro_rules! other_kind {
    ($name:ident, $status:literal) => {
        use crate::{detail::common_properties, ump_stream, ump_stream::UMP_MESSAGE_TYPE};

        pub(crate) const STATUS: u16 = $status;

        #[midi2_proc::generate_message(Via(ump_stream::UmpStream), FixedSize, MinSizeUmp(4))]
        struct $name {
            #[property(common_properties::UmpMessageTypeProperty<UMP_MESSAGE_TYPE>)]
            ump_type: (),
            #[property(ump_stream::StatusProperty<STATUS>)]
            status: (),
            #[property(ump_stream::ConsistentFormatsProperty)]
            consistent_formats: (),
        }
    };
}

mod buffer;
mod detail;
mod error;
mod traits;
mod ump_stream;

pub use ux;

/// `is_multiple_of` for a rustc that has none yet; a newer one takes its own.
pub(crate) trait MultipleOf {
    fn is_multiple_of(self, of: Self) -> bool;
}

impl MultipleOf for usize {
    fn is_multiple_of(self, of: usize) -> bool {
        if of == 0 {
            self == 0
        } else {
            self % of == 0
        }
    }
}

pub mod oracle;
