//! Sample dumps.
use crate::numbers::{Fields, Numbers};

/// The number of "all loops".
const ALL_LOOPS: u64 = 65_536;

/// Used to request and transmit sampler data.
#[derive(Debug, Clone, PartialEq, Eq)]
pub enum SampleDumpMsg {
    /// Asks for a sample.
    Request {
        /// The number of the sample, 0 to 16,383.
        sample_num: u16,
    },
    /// What the packets that follow hold.
    Header {
        /// The number of the sample, 0 to 16,383.
        sample_num: u16,
        /// Significant bits, 8 to 28.
        format: u8,
        /// Sample period in nanoseconds, 0 to 2,097,151.
        period: u32,
        /// Sample length in words, 0 to 2,097,151.
        length: u32,
        /// The word at which the sustain loop starts, 0 to 2,097,151.
        sustain_loop_start: u32,
        /// The word at which the sustain loop ends, 0 to 2,097,151.
        sustain_loop_end: u32,
        /// How the loop is played.
        loop_type: LoopType,
    },
    /// A packet of sample data.
    Packet {
        /// Running count, 0 to 127, then 0 again.
        running_count: u8,
        /// 120 bytes of 7 bits; filled with 0, surplus dropped.
        data: Vec<u8>,
    },
    /// Asks for the loop points of a sample.
    LoopPointsRequest {
        /// The number of the sample, 0 to 16,383.
        sample_num: u16,
        /// Which loop.
        loop_num: LoopNumber,
    },
    /// Loop points of a sample.
    LoopPointTransmission {
        /// The number of the sample, 0 to 16,383.
        sample_num: u16,
        /// Which loop.
        loop_num: LoopNumber,
        /// How the loop is played.
        loop_type: LoopType,
        /// Where the loop starts, in samples.
        start_addr: u32,
        /// Where the loop ends, in samples.
        end_addr: u32,
    },
}

impl SampleDumpMsg {
    /// A packet of 120 bytes, each held to 127; its running count is its number modulo 128.
    pub fn packet(num: u32, data: [u8; 120]) -> Self {
        Self::Packet { running_count: (num % 128) as u8, data: data.iter().map(|&byte| byte.min(127)).collect() }
    }

    pub(super) fn put<'a>(&'a self, n: &mut Numbers<'a>) {
        match self {
            Self::Request { sample_num } => {
                n.head(0x0300);
                n.put(*sample_num);
            }
            Self::Header { sample_num, format, period, length, sustain_loop_start, sustain_loop_end, loop_type } => {
                n.head(0x0100);
                n.put(*sample_num);
                n.put(*format);
                for field in [period, length, sustain_loop_start, sustain_loop_end] {
                    n.put(*field);
                }
                n.put(*loop_type as u8);
            }
            Self::Packet { running_count, data } => {
                n.head(0x0200);
                n.put(*running_count);
                n.text = data;
            }
            Self::LoopPointsRequest { sample_num, loop_num } => {
                n.head(0x0502);
                n.put(*sample_num);
                n.put(loop_num.number());
            }
            Self::LoopPointTransmission { sample_num, loop_num, loop_type, start_addr, end_addr } => {
                n.head(0x0501);
                n.put(*sample_num);
                n.put(loop_num.number());
                n.put(*loop_type as u8);
                n.put(*start_addr);
                n.put(*end_addr);
            }
        }
    }

    pub(super) fn take(head: u64, f: &mut Fields) -> Option<Self> {
        Some(match head {
            0x0100 => Self::Header {
                sample_num: f.take()?,
                format: f.take()?,
                period: f.take()?,
                length: f.take()?,
                sustain_loop_start: f.take()?,
                sustain_loop_end: f.take()?,
                loop_type: LoopType::of(f.take()?)?,
            },
            0x0200 => Self::Packet { running_count: f.take()?, data: f.text() },
            0x0300 => Self::Request { sample_num: f.take()? },
            0x0501 => Self::LoopPointTransmission {
                sample_num: f.take()?,
                loop_num: LoopNumber::of(f.take()?, LoopNumber::DeleteAll)?,
                loop_type: LoopType::of(f.take()?)?,
                start_addr: f.take()?,
                end_addr: f.take()?,
            },
            0x0502 => Self::LoopPointsRequest {
                sample_num: f.take()?,
                loop_num: LoopNumber::of(f.take()?, LoopNumber::RequestAll)?,
            },
            _ => return None,
        })
    }
}

/// Which loop of a sample.
#[derive(Debug, Copy, Clone, PartialEq, Eq)]
pub enum LoopNumber {
    /// A loop by its number, 0 to 16,382.
    Loop(u16),
    /// All loops, in a request.
    RequestAll,
    /// All loops are deleted, in a transmission.
    DeleteAll,
}

impl LoopNumber {
    pub(super) fn number(self) -> u64 {
        match self {
            Self::Loop(x) => x.into(),
            Self::RequestAll | Self::DeleteAll => ALL_LOOPS,
        }
    }

    pub(super) fn of(number: u64, all: Self) -> Option<Self> {
        match number {
            ALL_LOOPS => Some(all),
            _ => Some(Self::Loop(number.try_into().ok()?)),
        }
    }
}

/// How a loop of a [`SampleDumpMsg`] is played.
#[derive(Debug, Copy, Clone, PartialEq, Eq)]
pub enum LoopType {
    /// Forward only.
    Forward = 0,
    /// Backward and forward.
    BiDirectional = 1,
    /// No loop.
    Off = 127,
}

impl LoopType {
    fn of(byte: u8) -> Option<Self> {
        [Self::Forward, Self::BiDirectional, Self::Off].into_iter().find(|&t| t as u8 == byte)
    }
}
