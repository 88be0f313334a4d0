//! What every kind has: a buffer, and what the message that it starts with says.

use crate::sys::{self, Answer, Numbers, FOUND_END, FOUND_OTHER};
use crate::value::Value;
use crate::{Buffer, Error, Kind, Record, Refusal, MOST_PACKETS};

/// A buffer that starts with a well-formed message, and that message's packets and numbers.
#[derive(Clone, Copy)]
pub struct Message<B> {
    buffer: B,
    number: [u32; 9],
    packets: u8,
}

impl<B> Message<B> {
    #[inline]
    pub fn of(buffer: B, packets: usize, number: [u32; 9]) -> Message<B> {
        let packets = packets as u8;
        Message {
            buffer,
            number,
            packets,
        }
    }

    /// A message whose record came over and should be of a kind.
    #[inline]
    fn of_kind(buffer: B, record: &Numbers, kind: Kind) -> Result<Message<B>, Error> {
        if record.status == kind.status().into() {
            let number = sys::kept(&record.number, kind.numbers());
            return Ok(Message::of(buffer, record.packets, number));
        }
        let expected = kind;
        let found = Kind::try_from(record.status as u16)?;
        Err(Error::WrongKind { expected, found })
    }

    #[inline]
    pub fn packets(&self) -> usize {
        self.packets.into()
    }

    #[inline]
    pub fn record(&self, kind: Kind) -> Record {
        Record::with(kind, self.packets(), self.number)
    }

    #[inline]
    pub fn into_buffer(self) -> B {
        self.buffer
    }

    /// The field whose numbers start at a place.
    #[inline]
    pub fn field<T: Value>(&self, at: usize) -> T {
        T::of(&self.number[at..])
    }
}

impl<B: AsRef<[u32]>> Message<B> {
    /// Reads a buffer that should be one message of a kind.
    #[inline]
    pub fn read(buffer: B, kind: Kind) -> Result<Message<B>, Error> {
        let answer = sys::read(buffer.as_ref());
        Refusal::check(answer.refusal, answer.place)?;
        Message::of_kind(buffer, &answer.record, kind)
    }

    /// Takes a buffer that should start with a message of a kind. Refused as a setting on it would
    /// be: no words are refusal 1, another type is refusal 4.
    #[inline]
    pub fn first(buffer: B, kind: Kind) -> Result<Message<B>, Error> {
        let answer = sys::walk(buffer.as_ref(), 0);
        match answer.found {
            FOUND_END => return Err(Refusal::TooFewWords.into()),
            FOUND_OTHER => return Err(Refusal::WrongType(0).into()),
            _ => Refusal::check(answer.refusal, answer.place)?,
        }
        Message::of_kind(buffer, &answer.record, kind)
    }

    /// The message's words.
    #[inline]
    pub fn data(&self) -> &[u32] {
        let words = self.buffer.as_ref();
        words.get(..self.packets() * 4).unwrap_or(words)
    }
}

impl<B: AsMut<[u32]>> Message<B> {
    /// Sets the field whose numbers start at a place, and keeps it: a setting changes nothing else
    /// of what a message says.
    #[inline]
    pub fn set<T: Value>(
        &mut self,
        at: usize,
        value: T,
        call: impl FnOnce(&mut [u32], T::Crossed) -> Answer,
    ) -> Result<(), Refusal> {
        call(self.buffer.as_mut(), value.crossed()).done()?;
        value.put(&mut self.number[at..]);
        Ok(())
    }
}

impl<B: Buffer> Message<B> {
    /// Starts a message of a kind; every whole packet of the buffer becomes zero before.
    #[inline]
    pub fn new(mut buffer: B, kind: Kind) -> Result<Message<B>, Error> {
        buffer.resize(4);
        sys::fresh(buffer.as_mut(), kind.status().into()).done()?;
        Ok(Message::of(buffer, 1, Record::fresh_numbers(kind)))
    }

    /// Sets a text of which a packet has room for so many bytes. A buffer that grows has the length
    /// of the message afterwards, or its own where the text is refused.
    #[inline]
    pub fn set_text(
        &mut self,
        text: &[u8],
        per_packet: usize,
        call: impl FnOnce(&mut [u32], &[u8]) -> Answer,
    ) -> Result<(), Error> {
        let before = self.buffer.as_ref().len();
        let packets = text.len().saturating_sub(1) / per_packet + 1;
        let words = packets * 4;
        if packets <= MOST_PACKETS && words > before {
            self.buffer.resize(words);
        }
        if let Err(refusal) = call(self.buffer.as_mut(), text).done() {
            self.buffer.resize(before);
            return Err(self.text_refused(refusal, text.len(), per_packet));
        }
        if words < before {
            self.buffer.resize(words);
        }
        self.packets = packets as u8;
        Ok(())
    }

    /// Why a text was refused, with the most bytes where it is too long.
    #[cold]
    fn text_refused(&self, refusal: Refusal, length: usize, per_packet: usize) -> Error {
        let most = MOST_PACKETS.min(self.buffer.room() / 4) * per_packet;
        match refusal {
            Refusal::TooManyPackets | Refusal::NoRoom if length > most => Error::TextTooLong {
                refusal,
                length,
                most,
            },
            _ => Error::Refused(refusal),
        }
    }
}

/// The type of a kind's messages, over any buffer of words, and what every kind has.
macro_rules! kind {
    ($(#[$doc:meta])+ $kind:ident) => {
        $(#[$doc])+
        #[derive(Clone, Copy)]
        pub struct $kind<B>(pub(crate) $crate::message::Message<B>);

        impl<B: AsRef<[u32]>> $kind<B> {
            /// Reads a buffer that should be one message of this kind and nothing else. One of
            /// another kind is [`Error::WrongKind`](crate::Error::WrongKind).
            #[inline]
            pub fn read(buffer: B) -> Result<Self, $crate::Error> {
                $crate::message::Message::read(buffer, $crate::Kind::$kind).map($kind)
            }

            /// Takes a buffer that should start with a message of this kind; what comes after it
            /// is not looked at. Settings act on that message.
            #[inline]
            pub fn first(buffer: B) -> Result<Self, $crate::Error> {
                $crate::message::Message::first(buffer, $crate::Kind::$kind).map($kind)
            }

            /// The message's words: those of its packets, not the rest of the buffer.
            #[inline]
            #[must_use]
            pub fn data(&self) -> &[u32] {
                self.0.data()
            }

            /// The message's packets, in order.
            #[inline]
            pub fn packets(&self) -> $crate::Packets<'_> {
                $crate::Packets::new(self.data())
            }

            /// What the message says, as a record.
            #[inline]
            pub fn record(&self) -> $crate::Record {
                self.0.record($crate::Kind::$kind)
            }

            /// Gives the whole buffer back.
            #[inline]
            #[must_use]
            pub fn into_buffer(self) -> B {
                self.0.into_buffer()
            }
        }

        impl<B: $crate::Buffer> $kind<B> {
            /// Starts a message at the head of a buffer, with one packet and the fields of
            /// [`Record::new`](crate::Record::new). Every whole packet of the buffer becomes zero
            /// before, and a `Vec` gets the length of one packet. A buffer of fixed size with no
            /// whole packet is refusal 14.
            #[inline]
            pub fn new(buffer: B) -> Result<Self, $crate::Error> {
                $crate::message::Message::new(buffer, $crate::Kind::$kind).map($kind)
            }

            /// Starts a message in a buffer of its own: an array of zeros, or an empty `Vec`.
            #[inline]
            pub fn try_new() -> Result<Self, $crate::Error>
            where
                B: $crate::BufferDefault,
            {
                Self::new(B::buffer_default())
            }
        }

        /// Reads a slice that should be one message of this kind and nothing else.
        impl<'a> TryFrom<&'a [u32]> for $kind<&'a [u32]> {
            type Error = $crate::Error;

            #[inline]
            fn try_from(words: &'a [u32]) -> Result<Self, $crate::Error> {
                $kind::read(words)
            }
        }

        /// Messages are equal where their words are, whatever else is in their buffers.
        impl<A: AsRef<[u32]>, B: AsRef<[u32]>> PartialEq<$kind<B>> for $kind<A> {
            #[inline]
            fn eq(&self, other: &$kind<B>) -> bool {
                self.data() == other.data()
            }
        }

        impl<B: AsRef<[u32]>> Eq for $kind<B> {}
    };
}

/// The getters and setters of a kind's fields, by the place of their numbers in the record, and
/// `Debug` over all of them.
macro_rules! fields {
    (
        $kind:ident
        $($(#[$doc:meta])+ $at:literal $get:ident: $type:ty, $set:ident by $call:ident;)*
        $($text:ident;)?
    ) => {
        impl<B: AsRef<[u32]>> $kind<B> {
            $($(#[$doc])+
            #[inline]
            #[must_use]
            pub fn $get(&self) -> $type {
                self.0.field($at)
            })*
        }

        impl<B: AsRef<[u32]> + AsMut<[u32]>> $kind<B> {
            $(#[doc = concat!("Sets [`", stringify!($get), "`](Self::", stringify!($get), ").")]
            #[inline]
            pub fn $set(&mut self, value: $type) -> Result<(), $crate::Refusal> {
                self.0.set($at, value, $crate::sys::$call)
            })*
        }

        impl<B: AsRef<[u32]>> std::fmt::Debug for $kind<B> {
            fn fmt(&self, f: &mut std::fmt::Formatter<'_>) -> std::fmt::Result {
                f.debug_struct(stringify!($kind))
                    $(.field(stringify!($get), &self.$get()))*
                    $(.field(stringify!($text), &self.$text()))?
                    .finish()
            }
        }
    };
}

/// The text of a kind: as bytes, as a string, and set. A packet has room for 14 bytes, or for 13
/// after a block's number.
macro_rules! text {
    (
        $kind:ident $what:literal, $most:literal by $per_packet:literal:
        $get:ident, $bytes:ident, $set:ident, $try_set:ident by $call:ident
    ) => {
        impl<B: AsRef<[u32]>> $kind<B> {
            #[doc = concat!("The ", $what, " as a string.")]
            #[inline]
            #[must_use]
            pub fn $get(&self) -> String {
                $crate::text::string(self.data(), self.0.packets())
            }

            #[doc = concat!("The bytes of the ", $what, ", in order and without zeros.")]
            #[inline]
            pub fn $bytes(&self) -> $crate::TextBytesIterator<'_> {
                $crate::TextBytesIterator::new(self.data())
            }
        }

        impl<B: $crate::Buffer> $kind<B> {
            #[doc = concat!("Sets the ", $what, ", at most ", $most, " bytes of UTF-8.")]
            ///
            /// It takes as many packets as it needs, and every whole packet of the buffer after
            /// them becomes zero; a `Vec` gets their length. Text that is not UTF-8 is refusal 11.
            /// [`Error::TextTooLong`](crate::Error::TextTooLong) says how long it may be: text for
            /// more than 64 packets is refusal 3, for more packets than a buffer of fixed size has
            /// refusal 14.
            #[inline]
            pub fn $set(&mut self, text: impl AsRef<[u8]>) -> Result<(), $crate::Error> {
                self.0.set_text(text.as_ref(), $per_packet, $crate::sys::$call)
            }

            #[doc = concat!("As [`", stringify!($set), "`](Self::", stringify!($set), "), which refuses too.")]
            #[inline]
            pub fn $try_set(&mut self, text: impl AsRef<[u8]>) -> Result<(), $crate::Error> {
                self.$set(text)
            }
        }
    };
}

pub(crate) use {fields, kind, text};
