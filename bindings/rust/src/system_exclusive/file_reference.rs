//! File references: sound files on a shared network or file system.
use crate::numbers::{Fields, Numbers};

/// The kind of sound file that is open. It settles how a select is read.
#[derive(Debug, Copy, Clone, PartialEq, Eq)]
pub enum Kind {
    /// DLS or SF2.
    Bank = 0,
    /// WAV.
    WAV = 1,
}

/// The messages for sound files, by CA-018.
#[derive(Debug, Clone, PartialEq, Eq)]
pub enum FileReferenceMsg {
    /// Says where a file is; a `SelectContents` has to follow.
    Open {
        /// Tells the files of a device apart, 0 to 16,383.
        ctx: u16,
        /// The type of the file.
        file_type: FileReferenceType,
        /// The URL, of which the first 260 bytes are sent.
        url: Vec<u8>,
    },
    /// Prepares a file so that its sounds can be loaded.
    SelectContents {
        /// Tells the files of a device apart, 0 to 16,383.
        ctx: u16,
        /// How the sounds are mapped to banks and programs.
        map: SelectMap,
    },
    /// An `Open` and a `SelectContents` in one.
    OpenSelectContents {
        /// Tells the files of a device apart, 0 to 16,383.
        ctx: u16,
        /// The type of the file.
        file_type: FileReferenceType,
        /// The URL, of which the first 260 bytes are sent.
        url: Vec<u8>,
        /// How the sounds are mapped to banks and programs.
        map: SelectMap,
    },
    /// Closes a file.
    Close {
        /// Tells the files of a device apart, 0 to 16,383.
        ctx: u16,
    },
}

impl FileReferenceMsg {
    pub(super) fn put<'a>(&'a self, n: &mut Numbers<'a>) {
        match self {
            Self::Open { ctx, file_type, url } => {
                n.head(0x0B01);
                n.put(*ctx);
                n.put(*file_type as u8);
                n.text = url;
            }
            Self::SelectContents { ctx, map } => {
                n.head(0x0B02);
                n.put(*ctx);
                map.put(n);
            }
            Self::OpenSelectContents { ctx, file_type, url, map } => {
                n.head(0x0B03);
                n.put(*ctx);
                n.put(*file_type as u8);
                n.text = url;
                map.put(n);
            }
            Self::Close { ctx } => {
                n.head(0x0B04);
                n.put(*ctx);
            }
        }
    }

    pub(super) fn take(head: u64, f: &mut Fields) -> Option<Self> {
        Some(match head {
            0x0B01 => Self::Open { ctx: f.take()?, file_type: FileReferenceType::of(f.take()?)?, url: f.text() },
            0x0B02 => Self::SelectContents { ctx: f.take()?, map: SelectMap::take(f)? },
            0x0B03 => Self::OpenSelectContents {
                ctx: f.take()?,
                file_type: FileReferenceType::of(f.take()?)?,
                url: f.text(),
                map: SelectMap::take(f)?,
            },
            0x0B04 => Self::Close { ctx: f.take()? },
            _ => return None,
        })
    }
}

/// The type of a sound file.
#[derive(Debug, Copy, Clone, PartialEq, Eq)]
pub enum FileReferenceType {
    /// Downloadable Sounds.
    DLS = 0,
    /// SoundFont 2.
    SF2 = 1,
    /// WAV.
    WAV = 2,
}

impl FileReferenceType {
    fn of(number: u64) -> Option<Self> {
        Some(match number {
            0 => Self::DLS,
            1 => Self::SF2,
            2 => Self::WAV,
            _ => return None,
        })
    }
}

/// Where a sound of a `DLS` or `SF2` file goes.
#[derive(Debug, Copy, Clone, PartialEq, Eq)]
pub struct SoundFileMap {
    /// The bank that selects the sound, 0 to 16,383.
    pub dst_bank: u16,
    /// The program that selects the sound, 0 to 127.
    pub dst_prog: u8,
    /// The bank in the file, 0 to 16,383.
    pub src_bank: u16,
    /// The program in the file, 0 to 127.
    pub src_prog: u8,
    /// It is a drum instrument in the file.
    pub src_drum: bool,
    /// It is loaded as a drum instrument.
    pub dst_drum: bool,
    /// Initial volume, 0 to 127.
    pub volume: u8,
}

impl Default for SoundFileMap {
    fn default() -> Self {
        Self { dst_bank: 0, dst_prog: 0, src_bank: 0, src_prog: 0, src_drum: false, dst_drum: false, volume: 0x7F }
    }
}

impl SoundFileMap {
    fn to_entry(self) -> u64 {
        let target = u64::from(self.dst_bank) * 256 + u64::from(self.dst_prog);
        let source = (target * 65_536 + u64::from(self.src_bank)) * 256 + u64::from(self.src_prog);
        let drums = (source * 2 + u64::from(self.src_drum)) * 2 + u64::from(self.dst_drum);
        drums * 256 + u64::from(self.volume)
    }

    fn from_entry(entry: u64) -> Self {
        Self {
            dst_bank: (entry >> 42) as u16,
            dst_prog: (entry >> 34) as u8,
            src_bank: (entry >> 18) as u16,
            src_prog: (entry >> 10) as u8,
            src_drum: entry >> 9 & 1 == 1,
            dst_drum: entry >> 8 & 1 == 1,
            volume: entry as u8,
        }
    }
}

/// Where the sound of a `WAV` file goes.
#[derive(Debug, Copy, Clone, PartialEq, Eq)]
pub struct WAVMap {
    /// The bank that selects the sound, 0 to 16,383.
    pub dst_bank: u16,
    /// The program that selects the sound, 0 to 127.
    pub dst_prog: u8,
    /// The note at which the sound has its own pitch.
    pub base: u8,
    /// The lowest note that plays.
    pub lokey: u8,
    /// The highest note that plays.
    pub hikey: u8,
    /// Fine tuning, -8,192 to 8,191.
    pub fine: i16,
    /// Initial volume, 0 to 127.
    pub volume: u8,
}

impl Default for WAVMap {
    fn default() -> Self {
        Self { dst_bank: 0, dst_prog: 0, base: 60, lokey: 0, hikey: 0x7F, fine: 0, volume: 0x7F }
    }
}

/// How the sounds of a file are mapped.
#[derive(Debug, Clone, PartialEq, Eq)]
pub enum SelectMap {
    /// For DLS or SF2: up to 127 maps, surplus dropped; none for the map in the file.
    SoundFile(Vec<SoundFileMap>),
    /// For WAV.
    WAV(WAVMap),
    /// For DLS or SF2: the map in the file, its banks offset, by CA-028.
    SoundFileBankOffset {
        /// What is added to the bank, 0 to 16,383.
        bank_offset: u16,
        /// It is a drum instrument in the file.
        src_drum: bool,
    },
    /// For WAV: the bank offset, by CA-028.
    WAVBankOffset {
        /// The map.
        map: WAVMap,
        /// What is added to the bank, 0 to 16,383.
        bank_offset: u16,
        /// It is a drum instrument in the file.
        src_drum: bool,
    },
}

impl SelectMap {
    fn put(&self, n: &mut Numbers) {
        let (form, offset, drum, wav) = match self {
            Self::SoundFile(maps) => {
                n.entries = maps.iter().map(|map| map.to_entry()).collect();
                (0u8, 0, false, None)
            }
            Self::SoundFileBankOffset { bank_offset, src_drum } => (1, *bank_offset, *src_drum, None),
            Self::WAV(map) => (2, 0, false, Some(map)),
            Self::WAVBankOffset { map, bank_offset, src_drum } => (3, *bank_offset, *src_drum, Some(map)),
        };
        n.put(form);
        n.put(offset);
        n.put(drum);
        match wav {
            Some(map) => {
                n.put(map.dst_bank);
                for field in [map.dst_prog, map.base, map.lokey, map.hikey] {
                    n.put(field);
                }
                n.put_signed(map.fine);
                n.put(map.volume);
            }
            None => (0..7).for_each(|_| n.put(0u8)),
        }
    }

    fn take(f: &mut Fields) -> Option<Self> {
        let form = f.take::<u8>()?;
        let (bank_offset, src_drum) = (f.take()?, f.take_flag()?);
        let map = WAVMap {
            dst_bank: f.take()?,
            dst_prog: f.take()?,
            base: f.take()?,
            lokey: f.take()?,
            hikey: f.take()?,
            fine: f.take_signed()?,
            volume: f.take()?,
        };
        Some(match form {
            0 => {
                let entries = f.entries()?.iter();
                Self::SoundFile(entries.map(|&e| SoundFileMap::from_entry(e)).collect())
            }
            1 => Self::SoundFileBankOffset { bank_offset, src_drum },
            2 => Self::WAV(map),
            3 => Self::WAVBankOffset { map, bank_offset, src_drum },
            _ => return None,
        })
    }
}
