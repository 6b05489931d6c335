//! General MIDI.

/// Used to turn General MIDI level 1 or 2 on, or turn them off.
#[derive(Debug, Clone, Copy, PartialEq, Eq)]
pub enum GeneralMidi {
    /// Level 1 on.
    GM1 = 1,
    /// Level 2 on.
    GM2 = 3,
    /// Off.
    Off = 2,
}

impl GeneralMidi {
    /// What the second head byte says.
    pub(crate) fn of(byte: u64) -> Option<Self> {
        Some(match byte {
            1 => Self::GM1,
            2 => Self::Off,
            3 => Self::GM2,
            _ => return None,
        })
    }
}
