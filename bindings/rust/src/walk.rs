//! The frames of a stream.
use crate::ffi;
use crate::refusal::Refusal;
use crate::system_exclusive::Kind;
use std::ops::Range;

/// The longest stream that is walked.
pub const LONGEST_STREAM: usize = 65_535;

/// The length of the shortest frame.
const SHORTEST_FRAME: usize = 6;

/// A part of a stream.
#[derive(Debug, Clone, Copy, PartialEq, Eq, Hash)]
pub struct Stretch {
    /// Where it begins in the stream.
    pub offset: usize,
    /// How many bytes it has.
    pub length: usize,
}

impl Stretch {
    /// Its range in the stream: `&stream[stretch.range()]` is the frame.
    pub fn range(self) -> Range<usize> {
        self.offset..self.offset.saturating_add(self.length)
    }
}

/// The frames of a stream of up to 65,535 bytes, by rising offset.
pub fn walk(stream: &[u8], kind: Kind) -> Result<Vec<Stretch>, Refusal> {
    let most = stream.len().min(LONGEST_STREAM) / SHORTEST_FRAME;
    let mut index = vec![0; 2 * most];
    let frames = walk_into(stream, kind, &mut index)?;
    let pairs = index.chunks_exact(2).take(frames);
    Ok(pairs.map(|pair| Stretch { offset: pair[0] as usize, length: pair[1] as usize }).collect())
}

/// Lists the frames of a stream as pairs of offset and length from the index's start; how many frames there are.
///
/// What is past the last pair keeps its value. An index with fewer whole pairs than frames is refused with [`Refusal::Index`], which holds
/// the number of frames.
pub fn walk_into(stream: &[u8], kind: Kind, index: &mut [u32]) -> Result<usize, Refusal> {
    ffi::walk(stream, kind as u32, index).map(|frames| frames as usize)
}
