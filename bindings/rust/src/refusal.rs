//! Refusals, with the numbers of `include/pasoreum.h`.
use std::error::Error;
use std::fmt;

/// Why a call was refused. What was lent to the call is as it was.
#[derive(Debug, Clone, Copy, PartialEq, Eq, Hash)]
#[non_exhaustive]
pub enum Refusal {
    /// 1: a name, a URL or a custom type has a byte above 127, or a URL has a 00.
    High,
    /// 2: a file name above 1,024 bytes, file data above 111, a note change above 127 entries.
    Long,
    /// 3: a number of 28 bits that is 2^28 or more; a maker of one byte that is 00; a rate that is NaN, or 2^28 or more.
    Value,
    /// 4: an open with select whose map is of the other kind of sound file.
    Kind,
    /// 5: the place is past the end, or the frame is longer than what follows it.
    Space,
    /// 6: under 6 bytes, the first not F0, the last not F7, or a byte above 127 between them.
    Shape,
    /// 7: the second byte is not 7E, or a head that is none of the table's.
    Head,
    /// 8: no message for this kind of sound file has the frame, and `Sum` does not apply.
    Field,
    /// 9: another checksum byte would make it a frame.
    Sum,
    /// 10: fewer lent places than the message has; this crate lends enough.
    Hold,
    /// 11: a stream of more than 65,535 bytes.
    Stream,
    /// 12: fewer whole pairs than frames; the number of frames.
    Index(usize),
    /// 13: an identity reply that ends too early.
    UnexpectedEnd,
    /// 14: an identity reply with a byte above 127.
    ByteOverflow,
    /// 15: bytes that are no identity reply.
    NotImplemented,
    /// 64: numbers that are no message; this crate sends none.
    NoMessage,
    /// 65: no such kind of sound file; this crate sends none.
    NoKind,
    /// 66: fewer lent numbers than an answer has; this crate lends enough.
    NoRoom,
}

impl Refusal {
    /// The number of the refusal.
    pub fn number(self) -> u32 {
        match self {
            Self::High => 1,
            Self::Long => 2,
            Self::Value => 3,
            Self::Kind => 4,
            Self::Space => 5,
            Self::Shape => 6,
            Self::Head => 7,
            Self::Field => 8,
            Self::Sum => 9,
            Self::Hold => 10,
            Self::Stream => 11,
            Self::Index(_) => 12,
            Self::UnexpectedEnd => 13,
            Self::ByteOverflow => 14,
            Self::NotImplemented => 15,
            Self::NoMessage => 64,
            Self::NoKind => 65,
            Self::NoRoom => 66,
        }
    }

    /// The refusal of a number, with the value beside it.
    pub(crate) fn of(number: u32, value: u64) -> Self {
        match number {
            1 => Self::High,
            2 => Self::Long,
            3 => Self::Value,
            4 => Self::Kind,
            5 => Self::Space,
            6 => Self::Shape,
            7 => Self::Head,
            8 => Self::Field,
            9 => Self::Sum,
            10 => Self::Hold,
            11 => Self::Stream,
            12 => Self::Index(value as usize),
            13 => Self::UnexpectedEnd,
            14 => Self::ByteOverflow,
            15 => Self::NotImplemented,
            64 => Self::NoMessage,
            65 => Self::NoKind,
            66 => Self::NoRoom,
            _ => panic!("libpasoreum.a is of another version: refusal {number}"),
        }
    }
}

impl fmt::Display for Refusal {
    fn fmt(&self, f: &mut fmt::Formatter<'_>) -> fmt::Result {
        f.write_str(match self {
            Self::High => "a byte of a name, a URL or a type that cannot be sent",
            Self::Long => "a name, file data or a list that is too long",
            Self::Value => "a number that is too large, or a maker that is 0",
            Self::Kind => "a map of the other kind of sound file",
            Self::Space => "no room for the frame",
            Self::Shape => "not F0, bytes up to 127, and F7",
            Self::Head => "not a head of a Universal Non-Real-Time message",
            Self::Field => "a field has a value or a length that it cannot have",
            Self::Sum => "wrong checksum",
            Self::Hold => "too few places for data or entries",
            Self::Stream => "a stream of more than 65,535 bytes",
            Self::Index(frames) => return write!(f, "an index too short for {frames} frames"),
            Self::UnexpectedEnd => "the identity reply ends too early",
            Self::ByteOverflow => "the identity reply has a byte above 127",
            Self::NotImplemented => "no identity reply",
            Self::NoMessage => "numbers that are no message",
            Self::NoKind => "no such kind of sound file",
            Self::NoRoom => "too few places for an answer",
        })
    }
}

impl Error for Refusal {}
