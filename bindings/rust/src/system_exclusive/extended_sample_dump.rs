//! Extended sample dumps.
use super::LoopNumber;
use crate::numbers::{Fields, Numbers};
use crate::refusal::Refusal;
use crate::util::{join_rate, split_rate};

/// The extended sample dump messages of CA-019, for longer, named samples.
#[derive(Debug, Clone, PartialEq, Eq)]
pub enum ExtendedSampleDumpMsg {
    /// What the packets that follow hold.
    Header {
        /// The number of the sample, 0 to 16,383.
        sample_num: u16,
        /// Significant bits, 8 to 28.
        format: u8,
        /// The whole part of the sample rate in Hz, below 2^28.
        sample_rate_integer: u32,
        /// The rest of the sample rate in 2^28ths, below 2^28.
        sample_rate_fraction: u32,
        /// Sample length in words, below 2^35.
        length: u64,
        /// The word at which the sustain loop starts, below 2^35.
        sustain_loop_start: u64,
        /// The word at which the sustain loop ends, below 2^35.
        sustain_loop_end: u64,
        /// How the loop is played.
        loop_type: ExtendedLoopType,
        /// Number of audio channels, 0 to 127.
        num_channels: u8,
    },
    /// Asks for the name of a sample.
    SampleNameRequest {
        /// The number of the sample, 0 to 16,383.
        sample_num: u16,
    },
    /// The name of a sample.
    SampleName {
        /// The number of the sample, 0 to 16,383.
        sample_num: u16,
        /// The name, of which the first 127 bytes are sent.
        name: Vec<u8>,
    },
    /// Asks for the loop points of a sample.
    LoopPointsRequest {
        /// The number of the sample, 0 to 16,383.
        sample_num: u16,
        /// Which loop.
        loop_num: LoopNumber,
    },
    /// Loop points of a sample.
    LoopPointTransmission {
        /// The number of the sample, 0 to 16,383.
        sample_num: u16,
        /// Which loop.
        loop_num: LoopNumber,
        /// How the loop is played.
        loop_type: ExtendedLoopType,
        /// Where the loop starts, in samples, below 2^35.
        start_addr: u64,
        /// Where the loop ends, in samples, below 2^35.
        end_addr: u64,
    },
}

impl ExtendedSampleDumpMsg {
    /// A header from its rate in Hz; a rate that is NaN, or 2^28 or more, is refused.
    #[allow(clippy::too_many_arguments)]
    pub fn header(
        sample_num: u16,
        format: u8,
        sample_rate: f64,
        length: u64,
        sustain_loop_start: u64,
        sustain_loop_end: u64,
        loop_type: ExtendedLoopType,
        num_channels: u8,
    ) -> Result<Self, Refusal> {
        let (sample_rate_integer, sample_rate_fraction) = split_rate(sample_rate)?;
        Ok(Self::Header {
            sample_num,
            format,
            sample_rate_integer,
            sample_rate_fraction,
            length,
            sustain_loop_start,
            sustain_loop_end,
            loop_type,
            num_channels,
        })
    }

    /// The sample rate of a header in Hz, rounded once.
    pub fn sample_rate(&self) -> Option<f64> {
        match self {
            Self::Header { sample_rate_integer, sample_rate_fraction, .. } => {
                Some(join_rate(*sample_rate_integer, *sample_rate_fraction))
            }
            _ => None,
        }
    }

    pub(super) fn put<'a>(&'a self, n: &mut Numbers<'a>) {
        match self {
            Self::Header {
                sample_num,
                format,
                sample_rate_integer,
                sample_rate_fraction,
                length,
                sustain_loop_start,
                sustain_loop_end,
                loop_type,
                num_channels,
            } => {
                n.head(0x0505);
                n.put(*sample_num);
                n.put(*format);
                n.put(*sample_rate_integer);
                n.put(*sample_rate_fraction);
                n.put(*length);
                n.put(*sustain_loop_start);
                n.put(*sustain_loop_end);
                n.put(*loop_type as u8);
                n.put(*num_channels);
            }
            Self::SampleNameRequest { sample_num } => {
                n.head(0x0504);
                n.put(*sample_num);
            }
            Self::SampleName { sample_num, name } => {
                n.head(0x0503);
                n.put(*sample_num);
                n.text = name;
            }
            Self::LoopPointsRequest { sample_num, loop_num } => {
                n.head(0x0507);
                n.put(*sample_num);
                n.put(loop_num.number());
            }
            Self::LoopPointTransmission { sample_num, loop_num, loop_type, start_addr, end_addr } => {
                n.head(0x0506);
                n.put(*sample_num);
                n.put(loop_num.number());
                n.put(*loop_type as u8);
                n.put(*start_addr);
                n.put(*end_addr);
            }
        }
    }

    pub(super) fn take(head: u64, f: &mut Fields) -> Option<Self> {
        Some(match head {
            0x0503 => Self::SampleName { sample_num: f.take()?, name: f.text() },
            0x0504 => Self::SampleNameRequest { sample_num: f.take()? },
            0x0505 => Self::Header {
                sample_num: f.take()?,
                format: f.take()?,
                sample_rate_integer: f.take()?,
                sample_rate_fraction: f.take()?,
                length: f.take()?,
                sustain_loop_start: f.take()?,
                sustain_loop_end: f.take()?,
                loop_type: ExtendedLoopType::of(f.take()?)?,
                num_channels: f.take()?,
            },
            0x0506 => Self::LoopPointTransmission {
                sample_num: f.take()?,
                loop_num: LoopNumber::of(f.take()?, LoopNumber::DeleteAll)?,
                loop_type: ExtendedLoopType::of(f.take()?)?,
                start_addr: f.take()?,
                end_addr: f.take()?,
            },
            0x0507 => Self::LoopPointsRequest {
                sample_num: f.take()?,
                loop_num: LoopNumber::of(f.take()?, LoopNumber::RequestAll)?,
            },
            _ => return None,
        })
    }
}

/// How a loop of an [`ExtendedSampleDumpMsg`] is played.
#[derive(Debug, Copy, Clone, PartialEq, Eq)]
pub enum ExtendedLoopType {
    /// Forward.
    Forward = 0x00,
    /// Forward to the end, then backward, and again.
    BiDirectional = 0x01,
    /// Forward; on release of the key the rest of the sample is played.
    ForwardRelease = 0x02,
    /// Forward, then backward; on release of the key the rest of the sample is played.
    BiDirectionalRelease = 0x03,
    /// Backward.
    Backward = 0x40,
    /// Backward, then forward, and again.
    BackwardBiDirectional = 0x41,
    /// Backward; on release of the key the rest of the sample is played backward.
    BackwardRelease = 0x42,
    /// Backward, then forward; on release of the key the rest of the sample is played backward.
    BackwardBiDirectionalRelease = 0x43,
    /// Backward once.
    BackwardOneShot = 0x7E,
    /// Forward once.
    OneShot = 0x7F,
}

impl ExtendedLoopType {
    fn of(byte: u8) -> Option<Self> {
        Some(match byte {
            0x00 => Self::Forward,
            0x01 => Self::BiDirectional,
            0x02 => Self::ForwardRelease,
            0x03 => Self::BiDirectionalRelease,
            0x40 => Self::Backward,
            0x41 => Self::BackwardBiDirectional,
            0x42 => Self::BackwardRelease,
            0x43 => Self::BackwardBiDirectionalRelease,
            0x7E => Self::BackwardOneShot,
            0x7F => Self::OneShot,
            _ => return None,
        })
    }
}
