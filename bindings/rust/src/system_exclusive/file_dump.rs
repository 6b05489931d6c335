//! File dumps.
use super::DeviceID;
use crate::numbers::{Fields, Numbers};

/// Used to transmit general file data.
#[derive(Debug, Clone, PartialEq, Eq)]
pub enum FileDumpMsg {
    /// Asks for a file.
    Request {
        /// The device that asks.
        requester_device: DeviceID,
        /// The type of the file.
        file_type: FileType,
        /// The name of the file, up to 1,024 bytes.
        name: Vec<u8>,
    },
    /// What the packets that follow hold.
    Header {
        /// The device that sends.
        sender_device: DeviceID,
        /// The type of the file.
        file_type: FileType,
        /// The length of the file in bytes, below 2^28.
        length: u32,
        /// The name of the file, up to 1,024 bytes.
        name: Vec<u8>,
    },
    /// A packet of the file.
    Packet {
        /// Running count, 0 to 127, then 0 again.
        running_count: u8,
        /// Up to 111 bytes of 8 bits.
        data: Vec<u8>,
    },
}

impl FileDumpMsg {
    /// A packet; its running count is its number modulo 128.
    pub fn packet(num: u32, data: Vec<u8>) -> Self {
        Self::Packet { running_count: (num % 128) as u8, data }
    }

    pub(super) fn put<'a>(&'a self, n: &mut Numbers<'a>) {
        match self {
            Self::Request { requester_device, file_type, name } => {
                n.head(0x0703);
                n.put(requester_device.number());
                n.put(u32::from_be_bytes(file_type.letters()));
                n.text = name;
            }
            Self::Header { sender_device, file_type, length, name } => {
                n.head(0x0701);
                n.put(sender_device.number());
                n.put(u32::from_be_bytes(file_type.letters()));
                n.put(*length);
                n.text = name;
            }
            Self::Packet { running_count, data } => {
                n.head(0x0702);
                n.put(*running_count);
                n.text = data;
            }
        }
    }

    pub(super) fn take(head: u64, f: &mut Fields) -> Option<Self> {
        Some(match head {
            0x0701 => Self::Header {
                sender_device: DeviceID::of(f.take()?)?,
                file_type: FileType::of(f.take::<u32>()?.to_be_bytes()),
                length: f.take()?,
                name: f.text(),
            },
            0x0702 => Self::Packet { running_count: f.take()?, data: f.data()? },
            0x0703 => Self::Request {
                requester_device: DeviceID::of(f.take()?)?,
                file_type: FileType::of(f.take::<u32>()?.to_be_bytes()),
                name: f.text(),
            },
            _ => return None,
        })
    }
}

/// The type of a file, four letters.
#[derive(Debug, Copy, Clone, PartialEq, Eq)]
pub enum FileType {
    /// A MIDI file.
    MIDI,
    /// A MIDIEX file.
    MIEX,
    /// An ESEQ file.
    ESEQ,
    /// Plain text.
    TEXT,
    /// Binary data.
    BIN,
    /// A Macintosh file.
    MAC,
    /// Another type; one that spells a named type is read as that.
    Custom([u8; 4]),
}

impl FileType {
    /// The four letters.
    pub fn letters(self) -> [u8; 4] {
        match self {
            Self::MIDI => *b"MIDI",
            Self::MIEX => *b"MIEX",
            Self::ESEQ => *b"ESEQ",
            Self::TEXT => *b"TEXT",
            Self::BIN => *b"BIN ",
            Self::MAC => *b"MAC ",
            Self::Custom(letters) => letters,
        }
    }

    fn of(letters: [u8; 4]) -> Self {
        match &letters {
            b"MIDI" => Self::MIDI,
            b"MIEX" => Self::MIEX,
            b"ESEQ" => Self::ESEQ,
            b"TEXT" => Self::TEXT,
            b"BIN " => Self::BIN,
            b"MAC " => Self::MAC,
            _ => Self::Custom(letters),
        }
    }
}
