//! The messages, the device that they are for, and identity.
mod channels;
mod extended_sample_dump;
mod file_dump;
mod file_reference;
mod sample_dump;
mod tuning;

pub use channels::*;
pub use extended_sample_dump::*;
pub use file_dump::*;
pub use file_reference::*;
pub use sample_dump::*;
pub use tuning::*;

use crate::ffi;
use crate::general_midi::GeneralMidi;
use crate::numbers::{Fields, Numbers};
use crate::refusal::Refusal;

/// The length of the longest frame.
pub const LONGEST_FRAME: usize = 1_292;

/// The number of all call.
const ALL_CALL: u64 = 256;

/// A System Exclusive message.
#[derive(Debug, Clone, PartialEq, Eq)]
pub enum SystemExclusiveMsg {
    /// A diverse range of messages, for non-real-time applications.
    UniversalNonRealTime {
        /// The device that the message is for.
        device: DeviceID,
        /// The message.
        msg: UniversalNonRealTimeMsg,
    },
}

impl SystemExclusiveMsg {
    /// Writes the frame at a place of the output; its length in bytes. All else of the output keeps its value.
    ///
    /// Numbers out of a field's written range are held at its edge, names and lists are cut or filled to the layout.
    pub fn write(&self, out: &mut [u8], place: usize) -> Result<usize, Refusal> {
        let Self::UniversalNonRealTime { device, msg } = self;
        let mut n = Numbers::new(device.number());
        msg.put(&mut n);
        ffi::write(n.numbers(), n.text, &n.entries, out, place).map(|length| length as usize)
    }

    /// The frame.
    pub fn to_midi(&self) -> Result<Vec<u8>, Refusal> {
        let mut out = [0; LONGEST_FRAME];
        let length = self.write(&mut out, 0)?;
        Ok(out[..length].to_vec())
    }

    /// Reads a frame for the kind of sound file that is open.
    pub fn read(frame: &[u8], kind: Kind) -> Result<Self, Refusal> {
        let mut data = [0; ffi::DATA];
        let mut entries = [0; ffi::ENTRIES];
        let mut answer = [0; ffi::READING];
        ffi::read(frame, kind as u32, &mut data, &mut entries, &mut answer)?;
        Fields::of(frame, &data, &entries, &answer).and_then(Self::take).ok_or(Refusal::NoMessage)
    }

    /// The message of numbers.
    fn take(mut f: Fields) -> Option<Self> {
        let head = f.take()?;
        Some(Self::UniversalNonRealTime {
            device: DeviceID::of(f.take()?)?,
            msg: UniversalNonRealTimeMsg::take(head, &mut f)?,
        })
    }
}

/// A maker's number: one byte, or two where the second is there.
#[derive(Debug, Clone, Copy, PartialEq, Eq)]
pub struct ManufacturerID(pub u8, pub Option<u8>);

impl ManufacturerID {
    fn put(self, n: &mut Numbers) {
        n.put(self.1.is_some());
        n.put(self.0);
        n.put(self.1.unwrap_or(0));
    }

    fn take(f: &mut Fields) -> Option<Self> {
        let (two, first, second) = (f.take_flag()?, f.take()?, f.take()?);
        Some(Self(first, two.then_some(second)))
    }
}

impl From<u8> for ManufacturerID {
    fn from(a: u8) -> Self {
        Self(a, None)
    }
}

impl From<(u8, u8)> for ManufacturerID {
    fn from((a, b): (u8, u8)) -> Self {
        Self(a, Some(b))
    }
}

/// The device that is addressed: a number from 0 to 126, or all devices.
#[derive(Debug, Clone, Copy, PartialEq, Eq)]
pub enum DeviceID {
    /// One device.
    Device(u8),
    /// All devices.
    AllCall,
}

impl DeviceID {
    fn number(self) -> u64 {
        match self {
            Self::Device(x) => x.into(),
            Self::AllCall => ALL_CALL,
        }
    }

    fn of(number: u64) -> Option<Self> {
        match number {
            ALL_CALL => Some(Self::AllCall),
            _ => Some(Self::Device(number.try_into().ok()?)),
        }
    }
}

/// A diverse range of messages for non-real-time applications.
#[derive(Debug, Clone, PartialEq, Eq)]
pub enum UniversalNonRealTimeMsg {
    /// Sampler data.
    SampleDump(SampleDumpMsg),
    /// More of sampler data, by CA-019.
    ExtendedSampleDump(ExtendedSampleDumpMsg),
    /// Asks the device to identify itself.
    IdentityRequest,
    /// The response to an `IdentityRequest`.
    IdentityReply(IdentityReply),
    /// General file data.
    FileDump(FileDumpMsg),
    /// Asks for a tuning bulk dump of a tuning program, 0 to 127, and of a tuning bank, 0 to 127, if there is one.
    TuningBulkDumpRequest(u8, Option<u8>),
    /// A tuning for every key.
    KeyBasedTuningDump(KeyBasedTuningDump),
    /// Twelve tunings for all octaves, a byte each.
    ScaleTuningDump1Byte(ScaleTuningDump1Byte),
    /// Twelve tunings for all octaves, two bytes each.
    ScaleTuningDump2Byte(ScaleTuningDump2Byte),
    /// Changes the tuning of notes when they sound next.
    TuningNoteChange(TuningNoteChange),
    /// Twelve tunings for all octaves of a set of channels, a byte each.
    ScaleTuning1Byte(ScaleTuning1Byte),
    /// Twelve tunings for all octaves of a set of channels, two bytes each.
    ScaleTuning2Byte(ScaleTuning2Byte),
    /// General MIDI 1 or 2, on or off.
    GeneralMidi(GeneralMidi),
    /// Files on a shared network or file system.
    FileReference(FileReferenceMsg),
    /// All packets of a dump have been sent.
    EOF,
    /// Asks the sender to send no more packets until an `ACK` or `NAK`.
    Wait,
    /// Ends a dump before its end.
    Cancel,
    /// A packet was not received; its number.
    NAK(u8),
    /// A packet was received; its number.
    ACK(u8),
}

impl UniversalNonRealTimeMsg {
    /// Reads an identity reply from its head (06 02) on, as midi-msg does.
    ///
    /// Revision bytes are not tested, bytes after them are ignored.
    pub fn from_midi(m: &[u8]) -> Result<IdentityReply, Refusal> {
        let mut answer = [0; ffi::READING];
        answer[0] = ffi::IDENTITY as u64;
        let (_, reply) = answer.split_at_mut(ffi::READING_NUMBERS);
        ffi::identity(m, reply)?;
        Fields::of(&[], &[], &[], &answer).and_then(|mut f| IdentityReply::take(&mut f)).ok_or(Refusal::NoMessage)
    }

    fn put<'a>(&'a self, n: &mut Numbers<'a>) {
        match self {
            Self::SampleDump(m) => m.put(n),
            Self::ExtendedSampleDump(m) => m.put(n),
            Self::IdentityRequest => n.head(0x0601),
            Self::IdentityReply(m) => m.put(n),
            Self::FileDump(m) => m.put(n),
            Self::TuningBulkDumpRequest(program, bank) => {
                n.head(if bank.is_some() { 0x0803 } else { 0x0800 });
                if let Some(bank) = bank {
                    n.put(*bank);
                }
                n.put(*program);
            }
            Self::KeyBasedTuningDump(m) => m.put(n),
            Self::ScaleTuningDump1Byte(m) => m.put(n),
            Self::ScaleTuningDump2Byte(m) => m.put(n),
            Self::TuningNoteChange(m) => m.put(n),
            Self::ScaleTuning1Byte(m) => m.put(n),
            Self::ScaleTuning2Byte(m) => m.put(n),
            Self::GeneralMidi(m) => n.head(0x0900 + *m as u64),
            Self::FileReference(m) => m.put(n),
            Self::EOF => n.head(0x7B00),
            Self::Wait => n.head(0x7C00),
            Self::Cancel => n.head(0x7D00),
            Self::NAK(packet) => {
                n.head(0x7E00);
                n.put(*packet);
            }
            Self::ACK(packet) => {
                n.head(0x7F00);
                n.put(*packet);
            }
        }
    }

    fn take(head: u64, f: &mut Fields) -> Option<Self> {
        Some(match head {
            0x0100 | 0x0200 | 0x0300 | 0x0501 | 0x0502 => Self::SampleDump(SampleDumpMsg::take(head, f)?),
            0x0503..=0x0507 => Self::ExtendedSampleDump(ExtendedSampleDumpMsg::take(head, f)?),
            0x0601 => Self::IdentityRequest,
            0x0602 => Self::IdentityReply(IdentityReply::take(f)?),
            0x0701..=0x0703 => Self::FileDump(FileDumpMsg::take(head, f)?),
            0x0800 => Self::TuningBulkDumpRequest(f.take()?, None),
            0x0803 => {
                let bank = Some(f.take()?);
                Self::TuningBulkDumpRequest(f.take()?, bank)
            }
            0x0801 | 0x0804 => Self::KeyBasedTuningDump(KeyBasedTuningDump::take(head, f)?),
            0x0805 => Self::ScaleTuningDump1Byte(ScaleTuningDump1Byte::take(f)?),
            0x0806 => Self::ScaleTuningDump2Byte(ScaleTuningDump2Byte::take(f)?),
            0x0807 => Self::TuningNoteChange(TuningNoteChange::take(f)?),
            0x0808 => Self::ScaleTuning1Byte(ScaleTuning1Byte::take(f)?),
            0x0809 => Self::ScaleTuning2Byte(ScaleTuning2Byte::take(f)?),
            0x0901..=0x0903 => Self::GeneralMidi(GeneralMidi::of(head - 0x0900)?),
            0x0B01..=0x0B04 => Self::FileReference(FileReferenceMsg::take(head, f)?),
            0x7B00 => Self::EOF,
            0x7C00 => Self::Wait,
            0x7D00 => Self::Cancel,
            0x7E00 => Self::NAK(f.take()?),
            0x7F00 => Self::ACK(f.take()?),
            _ => return None,
        })
    }
}

/// A response to [`UniversalNonRealTimeMsg::IdentityRequest`]: what device sends it.
#[derive(Debug, Copy, Clone, PartialEq, Eq)]
pub struct IdentityReply {
    /// The maker.
    pub id: ManufacturerID,
    /// The family of devices, 0 to 16,383.
    pub family: u16,
    /// The member of the family, 0 to 16,383.
    pub family_member: u16,
    /// Four values, 0 to 127, sent in this order.
    pub software_revision: (u8, u8, u8, u8),
}

impl IdentityReply {
    fn put(&self, n: &mut Numbers) {
        n.head(0x0602);
        self.id.put(n);
        n.put(self.family);
        n.put(self.family_member);
        let (a, b, c, d) = self.software_revision;
        [a, b, c, d].into_iter().for_each(|byte| n.put(byte));
    }

    fn take(f: &mut Fields) -> Option<Self> {
        Some(Self {
            id: ManufacturerID::take(f)?,
            family: f.take()?,
            family_member: f.take()?,
            software_revision: (f.take()?, f.take()?, f.take()?, f.take()?),
        })
    }
}
