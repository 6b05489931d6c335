//! Sets of channels.
use crate::ffi;

/// A set of channels.
#[derive(Debug, Copy, Clone, PartialEq, Eq, Default)]
pub struct ChannelBitMap {
    /// Channel 1.
    pub channel_1: bool,
    /// Channel 2.
    pub channel_2: bool,
    /// Channel 3.
    pub channel_3: bool,
    /// Channel 4.
    pub channel_4: bool,
    /// Channel 5.
    pub channel_5: bool,
    /// Channel 6.
    pub channel_6: bool,
    /// Channel 7.
    pub channel_7: bool,
    /// Channel 8.
    pub channel_8: bool,
    /// Channel 9.
    pub channel_9: bool,
    /// Channel 10.
    pub channel_10: bool,
    /// Channel 11.
    pub channel_11: bool,
    /// Channel 12.
    pub channel_12: bool,
    /// Channel 13.
    pub channel_13: bool,
    /// Channel 14.
    pub channel_14: bool,
    /// Channel 15.
    pub channel_15: bool,
    /// Channel 16.
    pub channel_16: bool,
}

impl ChannelBitMap {
    /// All channels.
    pub fn all() -> Self {
        Self::from_set(u16::MAX)
    }

    /// No channel.
    pub fn none() -> Self {
        Self::default()
    }

    /// The channels of a set as a number, in which bit 0 is channel 1.
    pub fn from_set(set: u16) -> Self {
        let has = |channel: u32| set >> (channel - 1) & 1 == 1;
        Self {
            channel_1: has(1),
            channel_2: has(2),
            channel_3: has(3),
            channel_4: has(4),
            channel_5: has(5),
            channel_6: has(6),
            channel_7: has(7),
            channel_8: has(8),
            channel_9: has(9),
            channel_10: has(10),
            channel_11: has(11),
            channel_12: has(12),
            channel_13: has(13),
            channel_14: has(14),
            channel_15: has(15),
            channel_16: has(16),
        }
    }

    /// The set as a number, in which bit 0 is channel 1.
    pub fn to_set(&self) -> u16 {
        let flags = [
            self.channel_1,
            self.channel_2,
            self.channel_3,
            self.channel_4,
            self.channel_5,
            self.channel_6,
            self.channel_7,
            self.channel_8,
            self.channel_9,
            self.channel_10,
            self.channel_11,
            self.channel_12,
            self.channel_13,
            self.channel_14,
            self.channel_15,
            self.channel_16,
        ];
        let highest_first = flags.iter().rev();
        highest_first.fold(0, |set, &flag| set << 1 | u16::from(flag))
    }

    /// How many channels the set names.
    pub fn how_many(&self) -> u32 {
        ffi::channels(self.to_set())
    }

    /// The lowest channel of the set, 1 to 16.
    pub fn lowest(&self) -> Option<u8> {
        match ffi::lowest_channel(self.to_set()) {
            0 => None,
            channel => Some(channel as u8),
        }
    }
}
