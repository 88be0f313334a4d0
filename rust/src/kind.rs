//! The kinds, and the named choices of a function block.

use crate::{sys, Refusal};
use std::fmt;

/// Gives every kind to a macro: its name, its status, and how many numbers its record has.
macro_rules! each_kind {
    ($macro:ident) => {
        $macro! {
            EndpointDiscovery 0x00 7,
            EndpointInfo 0x01 8,
            DeviceIdentity 0x02 9,
            EndpointName 0x03 0,
            ProductInstanceId 0x04 0,
            FunctionBlockInfo 0x11 9,
            FunctionBlockName 0x12 1,
        }
    };
}
pub(crate) use each_kind;

macro_rules! kind_enum {
    ($($name:ident $status:literal $numbers:literal,)*) => {
        /// The kind of a message.
        ///
        /// ```
        /// use frayedbin::Kind;
        ///
        /// assert_eq!(Kind::FunctionBlockName.status(), 0x12);
        /// assert_eq!(Kind::try_from(0x12), Ok(Kind::FunctionBlockName));
        /// assert_eq!(Kind::try_from(0x05).unwrap_err().number(), 5);
        /// assert_eq!(Kind::FunctionBlockName.to_string(), "function-block-name");
        /// ```
        #[derive(Clone, Copy, Debug, PartialEq, Eq, Hash)]
        #[non_exhaustive]
        pub enum Kind {
            $(
                #[doc = concat!("Status ", stringify!($status), ": [`", stringify!($name), "`](crate::", stringify!($name), ").")]
                $name,
            )*
        }

        impl Kind {
            /// The kind's status.
            #[inline]
            #[must_use]
            pub fn status(self) -> u16 {
                match self {
                    $(Kind::$name => $status,)*
                }
            }

            /// How many numbers the kind's record has.
            #[inline]
            pub(crate) fn numbers(self) -> usize {
                match self {
                    $(Kind::$name => $numbers,)*
                }
            }
        }

        /// The kind of a status, or refusal 5.
        impl TryFrom<u16> for Kind {
            type Error = Refusal;

            #[inline]
            fn try_from(status: u16) -> Result<Kind, Refusal> {
                match status {
                    $($status => Ok(Kind::$name),)*
                    _ => Err(Refusal::UnknownStatus),
                }
            }
        }
    };
}
each_kind!(kind_enum);

/// The kind's name, as the listing prints it.
impl fmt::Display for Kind {
    fn fmt(&self, f: &mut fmt::Formatter<'_>) -> fmt::Result {
        f.pad(&sys::kind_name(self.status().into()))
    }
}

/// What users may take a function block for.
#[derive(Clone, Copy, Debug, Default, PartialEq, Eq, Hash)]
pub enum UiHint {
    /// Code 0: nothing is said.
    #[default]
    Undeclared,
    /// Code 1: mostly a receiver.
    Receiver,
    /// Code 2: mostly a sender.
    Sender,
    /// Code 3: both.
    #[doc(alias = "SenderReciever")]
    SenderReceiver,
}

impl UiHint {
    /// [`UiHint::SenderReceiver`] as midi2 spells it, for patterns too.
    ///
    /// ```
    /// use frayedbin::UiHint;
    ///
    /// let receives = |hint| match hint {
    ///     UiHint::Undeclared | UiHint::Sender => false,
    ///     UiHint::Receiver | UiHint::SenderReciever => true,
    /// };
    /// assert!(receives(UiHint::SenderReceiver));
    /// ```
    #[allow(non_upper_case_globals)]
    pub const SenderReciever: UiHint = UiHint::SenderReceiver;
}

/// How a function block that is a MIDI 1.0 port takes messages. One that is none has `None`.
#[derive(Clone, Copy, Debug, PartialEq, Eq, Hash)]
pub enum Midi1Port {
    /// Code 2: at the speed of MIDI 1.0 only.
    RestrictBandwidth,
    /// Code 1: at any speed.
    DontRestrictBandwidth,
}

/// Where a function block's messages go, as the block sees it.
#[derive(Clone, Copy, Debug, Default, PartialEq, Eq, Hash)]
pub enum Direction {
    /// Code 1.
    Input,
    /// Code 2.
    Output,
    /// Code 3.
    #[default]
    Bidirectional,
}
