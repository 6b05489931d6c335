//! Tunings.
use super::ChannelBitMap;
use crate::numbers::{Fields, Numbers};

/// The number of no bank in a note change.
const NO_BANK: u64 = 256;
/// The entry of no tuning.
const NO_TUNING: u64 = 1 << 24;
/// The factor of the key in a note change.
const KEY: u64 = 1 << 25;

/// Changes the tunings of notes.
#[derive(Debug, Clone, PartialEq, Eq)]
pub struct TuningNoteChange {
    /// The tuning program, 0 to 127.
    pub tuning_program_num: u8,
    /// The tuning bank, 0 to 127; none is written as bank 0.
    pub tuning_bank_num: Option<u8>,
    /// Up to 127 notes and their tunings; `None` is "no change".
    pub tunings: Vec<(u8, Option<Tuning>)>,
}

impl TuningNoteChange {
    pub(super) fn put(&self, n: &mut Numbers) {
        n.head(0x0807);
        n.put(self.tuning_bank_num.map_or(NO_BANK, u64::from));
        n.put(self.tuning_program_num);
        let tunings = self.tunings.iter();
        n.entries = tunings.map(|(key, tuning)| u64::from(*key) * KEY + Tuning::to_entry(*tuning)).collect();
    }

    pub(super) fn take(f: &mut Fields) -> Option<Self> {
        let bank = f.take::<u64>()?;
        let entries = f.entries()?.iter();
        Some(Self {
            tuning_bank_num: match bank {
                NO_BANK => None,
                _ => Some(bank.try_into().ok()?),
            },
            tuning_program_num: f.take()?,
            tunings: entries.map(|e| ((e / KEY) as u8, Tuning::from_entry(e % KEY))).collect(),
        })
    }
}

/// Sets the tunings of all 128 keys.
#[derive(Debug, Clone, PartialEq, Eq)]
pub struct KeyBasedTuningDump {
    /// The tuning program, 0 to 127.
    pub tuning_program_num: u8,
    /// The tuning bank, 0 to 127, if there is one.
    pub tuning_bank_num: Option<u8>,
    /// The name.
    pub name: [u8; 16],
    /// The tuning of each key; `None` is "no change". Surplus is ignored, missing keys are in equal temperament.
    pub tunings: Vec<Option<Tuning>>,
}

impl KeyBasedTuningDump {
    pub(super) fn put<'a>(&'a self, n: &mut Numbers<'a>) {
        n.head(match self.tuning_bank_num {
            Some(_) => 0x0804,
            None => 0x0801,
        });
        if let Some(bank) = self.tuning_bank_num {
            n.put(bank);
        }
        n.put(self.tuning_program_num);
        n.text = &self.name;
        n.entries = self.tunings.iter().map(|t| Tuning::to_entry(*t)).collect();
    }

    pub(super) fn take(head: u64, f: &mut Fields) -> Option<Self> {
        let entries = f.entries()?.iter();
        Some(Self {
            tuning_bank_num: match head {
                0x0804 => Some(f.take()?),
                _ => None,
            },
            tuning_program_num: f.take()?,
            name: f.name()?,
            tunings: entries.map(|&e| Tuning::from_entry(e)).collect(),
        })
    }
}

/// A pitch.
#[derive(Debug, Copy, Clone, PartialEq, Eq)]
pub struct Tuning {
    /// The semitone: the note of this number, 0 to 127.
    pub semitone: u8,
    /// Parts of a semitone above it, 0 to 16,383.
    pub fraction: u16,
}

impl Tuning {
    fn to_entry(tuning: Option<Self>) -> u64 {
        match tuning {
            Some(t) => u64::from(t.semitone) * 65_536 + u64::from(t.fraction),
            None => NO_TUNING,
        }
    }

    fn from_entry(entry: u64) -> Option<Self> {
        (entry < NO_TUNING).then_some(Self { semitone: (entry / 65_536) as u8, fraction: (entry % 65_536) as u16 })
    }
}

/// Tunes all octaves of a tuning program, a byte for each note.
#[derive(Debug, Copy, Clone, PartialEq, Eq)]
pub struct ScaleTuningDump1Byte {
    /// The tuning program, 0 to 127.
    pub tuning_program_num: u8,
    /// The tuning bank, 0 to 127.
    pub tuning_bank_num: u8,
    /// The name.
    pub name: [u8; 16],
    /// Cents above equal temperament from C on, -64 to 63.
    pub tuning: [i8; 12],
}

impl ScaleTuningDump1Byte {
    pub(super) fn put<'a>(&'a self, n: &mut Numbers<'a>) {
        n.head(0x0805);
        n.put(self.tuning_bank_num);
        n.put(self.tuning_program_num);
        n.text = &self.name;
        self.tuning.iter().for_each(|note| n.put_signed(*note));
    }

    pub(super) fn take(f: &mut Fields) -> Option<Self> {
        Some(Self {
            tuning_bank_num: f.take()?,
            tuning_program_num: f.take()?,
            name: f.name()?,
            tuning: f.take_scale()?,
        })
    }
}

/// Tunes all octaves of a tuning program, two bytes for each note.
#[derive(Debug, Copy, Clone, PartialEq, Eq)]
pub struct ScaleTuningDump2Byte {
    /// The tuning program, 0 to 127.
    pub tuning_program_num: u8,
    /// The tuning bank, 0 to 127.
    pub tuning_bank_num: u8,
    /// The name.
    pub name: [u8; 16],
    /// Steps of 0.012207 cents above equal temperament from C on, -8,192 to 8,191.
    pub tuning: [i16; 12],
}

impl ScaleTuningDump2Byte {
    pub(super) fn put<'a>(&'a self, n: &mut Numbers<'a>) {
        n.head(0x0806);
        n.put(self.tuning_bank_num);
        n.put(self.tuning_program_num);
        n.text = &self.name;
        self.tuning.iter().for_each(|note| n.put_signed(*note));
    }

    pub(super) fn take(f: &mut Fields) -> Option<Self> {
        Some(Self {
            tuning_bank_num: f.take()?,
            tuning_program_num: f.take()?,
            name: f.name()?,
            tuning: f.take_scale()?,
        })
    }
}

/// Tunes all octaves of a set of channels, a byte for each note.
#[derive(Debug, Copy, Clone, PartialEq, Eq)]
pub struct ScaleTuning1Byte {
    /// The channels.
    pub channels: ChannelBitMap,
    /// Cents above equal temperament from C on, -64 to 63.
    pub tuning: [i8; 12],
}

impl ScaleTuning1Byte {
    pub(super) fn put(&self, n: &mut Numbers) {
        n.head(0x0808);
        n.put(self.channels.to_set());
        self.tuning.iter().for_each(|note| n.put_signed(*note));
    }

    pub(super) fn take(f: &mut Fields) -> Option<Self> {
        Some(Self { channels: ChannelBitMap::from_set(f.take()?), tuning: f.take_scale()? })
    }
}

/// Tunes all octaves of a set of channels, two bytes for each note.
#[derive(Debug, Copy, Clone, PartialEq, Eq)]
pub struct ScaleTuning2Byte {
    /// The channels.
    pub channels: ChannelBitMap,
    /// Steps of 0.012207 cents above equal temperament from C on, -8,192 to 8,191.
    pub tuning: [i16; 12],
}

impl ScaleTuning2Byte {
    pub(super) fn put(&self, n: &mut Numbers) {
        n.head(0x0809);
        n.put(self.channels.to_set());
        self.tuning.iter().for_each(|note| n.put_signed(*note));
    }

    pub(super) fn take(f: &mut Fields) -> Option<Self> {
        Some(Self { channels: ChannelBitMap::from_set(f.take()?), tuning: f.take_scale()? })
    }
}
