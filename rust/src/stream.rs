//! Messages of any kind, and a stream of them.

use crate::kind::each_kind;
use crate::message::Message;
use crate::sys::{self, WalkAnswer, FOUND_END, FOUND_OTHER};
use crate::{Error, Kind, Packets, Record, Refusal};
use std::fmt;
use std::iter::FusedIterator;

macro_rules! stream_enum {
    ($($name:ident $status:literal $numbers:literal,)*) => {
        /// A message of any kind.
        ///
        /// ```
        /// use frayedbin::UmpStream;
        ///
        /// let words = [0xF012_0541, 0, 0, 0];
        /// match UmpStream::read(words)? {
        ///     UmpStream::FunctionBlockName(name) => {
        ///         assert_eq!(name.function_block(), 5);
        ///         assert_eq!(name.name(), "A");
        ///     }
        ///     other => panic!("{other:?}"),
        /// }
        /// # Ok::<(), frayedbin::Refusal>(())
        /// ```
        #[derive(Clone, Copy)]
        #[non_exhaustive]
        pub enum UmpStream<B> {
            $(
                #[doc = concat!("Status ", stringify!($status), ".")]
                $name(crate::$name<B>),
            )*
        }

        impl<B> UmpStream<B> {
            /// The typed message of a status.
            #[inline]
            fn of(status: u32, message: Message<B>) -> Result<UmpStream<B>, Refusal> {
                match Kind::try_from(status as u16)? {
                    $(Kind::$name => Ok(UmpStream::$name(crate::$name(message))),)*
                }
            }

            /// What the message says, as a record, with its kind.
            #[inline]
            pub fn record(&self) -> Record {
                match self {
                    $(UmpStream::$name(m) => m.0.record(Kind::$name),)*
                }
            }

            #[inline]
            fn message(&self) -> &Message<B> {
                match self {
                    $(UmpStream::$name(m) => &m.0,)*
                }
            }
        }

        /// As the typed message: its name says the kind.
        impl<B: AsRef<[u32]>> fmt::Debug for UmpStream<B> {
            fn fmt(&self, f: &mut fmt::Formatter<'_>) -> fmt::Result {
                match self {
                    $(UmpStream::$name(m) => m.fmt(f),)*
                }
            }
        }

        $(
            impl<B> From<crate::$name<B>> for UmpStream<B> {
                #[inline]
                fn from(message: crate::$name<B>) -> UmpStream<B> {
                    UmpStream::$name(message)
                }
            }

            /// The message of that kind; one of another is [`Error::WrongKind`].
            impl<B> TryFrom<UmpStream<B>> for crate::$name<B> {
                type Error = Error;

                #[inline]
                fn try_from(message: UmpStream<B>) -> Result<Self, Error> {
                    match message {
                        UmpStream::$name(m) => Ok(m),
                        other => Err(Error::WrongKind {
                            expected: Kind::$name,
                            found: other.record().kind(),
                        }),
                    }
                }
            }
        )*
    };
}
each_kind!(stream_enum);

impl<B: AsRef<[u32]>> UmpStream<B> {
    /// Reads a buffer that should be one message and nothing else.
    #[inline]
    pub fn read(buffer: B) -> Result<UmpStream<B>, Refusal> {
        let answer = sys::read(buffer.as_ref());
        Refusal::check(answer.refusal, answer.place)?;
        let number = sys::looked_at(&answer.record.number);
        let message = Message::of(buffer, answer.record.packets, number);
        UmpStream::of(answer.record.status, message)
    }

    /// The message's words.
    #[inline]
    #[must_use]
    pub fn data(&self) -> &[u32] {
        self.message().data()
    }

    /// The message's packets, in order.
    #[inline]
    pub fn packets(&self) -> Packets<'_> {
        Packets::new(self.data())
    }
}

/// Reads a slice that should be one message and nothing else.
impl<'a> TryFrom<&'a [u32]> for UmpStream<&'a [u32]> {
    type Error = Refusal;

    #[inline]
    fn try_from(words: &'a [u32]) -> Result<Self, Refusal> {
        UmpStream::read(words)
    }
}

/// Messages are equal where their words are, whatever else is in their buffers.
impl<A: AsRef<[u32]>, B: AsRef<[u32]>> PartialEq<UmpStream<B>> for UmpStream<A> {
    fn eq(&self, other: &UmpStream<B>) -> bool {
        self.data() == other.data()
    }
}

impl<B: AsRef<[u32]>> Eq for UmpStream<B> {}

/// How many words a packet of a type has, and so a message of any type but F, which may have
/// several packets. The type is the highest four bits of its first word; a number above 15 is no
/// type.
///
/// ```
/// use frayedbin::words_of_type;
///
/// let note_on = 0x4090_3C00_u32;
/// assert_eq!(words_of_type((note_on >> 28) as u8), Some(2));
/// assert_eq!(words_of_type(16), None);
///
/// let sizes: Vec<usize> = (0..16).filter_map(words_of_type).collect();
/// assert_eq!(sizes, [1, 1, 1, 2, 2, 4, 1, 1, 2, 2, 2, 3, 3, 4, 4, 4]);
/// ```
#[inline]
#[must_use]
pub fn words_of_type(ump_type: u8) -> Option<usize> {
    match sys::words_of_type(u32::from(ump_type)) {
        0 => None,
        words => Some(words),
    }
}

/// What stands at a word position of a stream.
#[derive(Clone, Copy, Debug, PartialEq, Eq)]
pub enum Found<'a> {
    /// A message of another type, and its words.
    Other {
        /// The type, 0 to 14.
        ump_type: u8,
        /// The words that messages of this type take.
        words: &'a [u32],
    },
    /// A message of one of the kinds.
    Message(UmpStream<&'a [u32]>),
    /// What is neither.
    Refused {
        /// Why it is refused.
        refusal: Refusal,
        /// The words that are refused: the walk goes on after them.
        words: &'a [u32],
    },
}

impl Found<'_> {
    /// Whether it stays the same when more words come: all but refusal 1, too few words, does.
    #[inline]
    #[must_use]
    pub fn is_final(&self) -> bool {
        let more_may_come = Refusal::TooFewWords;
        !matches!(self, Found::Refused { refusal, .. } if *refusal == more_may_come)
    }
}

/// The messages of a stream: for each its word position, and what stands there.
///
/// A refusal ends nothing: the walk goes on after what was refused.
///
/// ```
/// use frayedbin::{Found, Messages, Refusal, UmpStream};
///
/// let stream = [0x10F8_0000, 0xF011_0003, 0, 0, 0, 0xF011_0000, 0, 0, 0];
/// let mut messages = Messages::new(&stream);
/// assert!(matches!(messages.next(), Some((0, Found::Other { ump_type: 1, .. }))));
/// assert!(matches!(messages.next(), Some((1, Found::Message(UmpStream::FunctionBlockInfo(_))))));
/// let refused = Found::Refused { refusal: Refusal::BadDirection, words: &stream[5..] };
/// assert_eq!(messages.next(), Some((5, refused)));
/// assert_eq!(messages.next(), None);
/// ```
///
/// Words that still arrive are walked as far as the answers are final. Those after the last final
/// answer are kept, and walked again when more have come:
///
/// ```
/// use frayedbin::{Found, Messages, UmpStream};
///
/// let arriving: [&[u32]; 3] = [&[0x10F8_0000, 0xF403_4162], &[0, 0, 0], &[0xFC03_6300, 0, 0, 0]];
/// let mut kept = Vec::new();
/// let mut names = Vec::new();
/// for words in arriving {
///     kept.extend_from_slice(words);
///     let mut messages = Messages::new(&kept);
///     let mut waits_at = 0;
///     while let Some((_, found)) = messages.next() {
///         if !found.is_final() {
///             break;
///         }
///         if let Found::Message(UmpStream::EndpointName(name)) = found {
///             names.push(name.name());
///         }
///         waits_at = messages.position();
///     }
///     kept.drain(..waits_at);
/// }
/// assert_eq!(names, ["Abc"]);
/// assert!(kept.is_empty());
/// ```
#[derive(Clone, Debug)]
#[must_use = "iterators are lazy"]
pub struct Messages<'a> {
    words: &'a [u32],
    position: usize,
}

impl<'a> Messages<'a> {
    /// The messages of some words, from the start.
    pub fn new(words: &'a [u32]) -> Messages<'a> {
        Messages::at(words, 0)
    }

    /// The messages from a word position on.
    pub fn at(words: &'a [u32], position: usize) -> Messages<'a> {
        Messages { words, position }
    }

    /// The word position that comes next.
    #[must_use]
    pub fn position(&self) -> usize {
        self.position
    }
}

impl<'a> Iterator for Messages<'a> {
    type Item = (usize, Found<'a>);

    #[inline]
    fn next(&mut self) -> Option<(usize, Found<'a>)> {
        let position = self.position;
        let answer = sys::walk(self.words, position);
        if answer.found == FOUND_END {
            return None;
        }
        self.position = answer.next;
        let words = self.words.get(position..answer.next).unwrap_or(&[]);
        if answer.found == FOUND_OTHER {
            let ump_type = answer.ump_type as u8;
            return Some((position, Found::Other { ump_type, words }));
        }
        match found_message(words, &answer) {
            Ok(message) => Some((position, Found::Message(message))),
            Err(refusal) => Some((position, Found::Refused { refusal, words })),
        }
    }
}

impl FusedIterator for Messages<'_> {}

/// The message that was found, or why there is none.
#[inline]
fn found_message<'a>(
    words: &'a [u32],
    answer: &WalkAnswer,
) -> Result<UmpStream<&'a [u32]>, Refusal> {
    Refusal::check(answer.refusal, answer.place)?;
    let message = Message::of(
        words,
        answer.record.packets,
        sys::looked_at(&answer.record.number),
    );
    UmpStream::of(answer.record.status, message)
}
