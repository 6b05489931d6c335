//! The functions of `include/pasoreum.h`, with slices for pointers and lengths. All unsafe code is here.
use crate::refusal::Refusal;

/// How many numbers a message has at most.
pub(crate) const NUMBERS: usize = 16;
/// How many numbers of a reading stand before the message's own.
pub(crate) const READING_NUMBERS: usize = 4;
/// How many numbers a reading takes.
pub(crate) const READING: usize = READING_NUMBERS + NUMBERS;
/// How many numbers an identity reply has.
pub(crate) const IDENTITY: usize = 9;
/// How many bytes of file data a frame has at most.
pub(crate) const DATA: usize = 111;
/// How many entries a frame has at most.
pub(crate) const ENTRIES: usize = 128;

extern "C" {
    fn pasoreum_write(
        numbers: *const u64,
        numbers_len: usize,
        text: *const u8,
        text_len: usize,
        entries: *const u64,
        entries_len: usize,
        out: *mut u8,
        out_len: usize,
        place: usize,
        value: *mut u64,
    ) -> u32;
    fn pasoreum_read(
        frame: *const u8,
        frame_len: usize,
        kind: u32,
        data: *mut u8,
        data_len: usize,
        entries: *mut u64,
        entries_len: usize,
        answer: *mut u64,
        answer_len: usize,
    ) -> u32;
    fn pasoreum_walk(
        stream: *const u8,
        stream_len: usize,
        kind: u32,
        index: *mut u32,
        index_len: usize,
        value: *mut u64,
    ) -> u32;
    fn pasoreum_identity(bytes: *const u8, bytes_len: usize, answer: *mut u64, answer_len: usize) -> u32;
    fn pasoreum_split_rate(rate: f64, whole: *mut u32, fraction: *mut u32) -> u32;
    fn pasoreum_join_rate(whole: u32, fraction: u32) -> f64;
    fn pasoreum_cents(cents: f32) -> u16;
    fn pasoreum_channels(set: u16) -> u32;
    fn pasoreum_lowest_channel(set: u16) -> u32;
}

/// The value where nothing is refused, or the refusal.
fn answered(number: u32, value: u64) -> Result<u64, Refusal> {
    match number {
        0 => Ok(value),
        _ => Err(Refusal::of(number, value)),
    }
}

/// Writes a message at a place; the length of its frame.
pub(crate) fn write(
    numbers: &[u64],
    text: &[u8],
    entries: &[u64],
    out: &mut [u8],
    place: usize,
) -> Result<u64, Refusal> {
    let mut value = 0;
    // SAFETY: each pointer and length is a slice's, never null; `out` and `value` are borrowed apart from all else.
    let number = unsafe {
        pasoreum_write(
            numbers.as_ptr(),
            numbers.len(),
            text.as_ptr(),
            text.len(),
            entries.as_ptr(),
            entries.len(),
            out.as_mut_ptr(),
            out.len(),
            place,
            &mut value,
        )
    };
    answered(number, value)
}

/// Reads a frame into data, entries and answer.
pub(crate) fn read(
    frame: &[u8],
    kind: u32,
    data: &mut [u8],
    entries: &mut [u64],
    answer: &mut [u64],
) -> Result<(), Refusal> {
    // SAFETY: each pointer and length is a slice's, never null; what is written to is borrowed apart from all else.
    let number = unsafe {
        pasoreum_read(
            frame.as_ptr(),
            frame.len(),
            kind,
            data.as_mut_ptr(),
            data.len(),
            entries.as_mut_ptr(),
            entries.len(),
            answer.as_mut_ptr(),
            answer.len(),
        )
    };
    answered(number, 0).map(|_| ())
}

/// Lists the frames of a stream; how many they are.
pub(crate) fn walk(stream: &[u8], kind: u32, index: &mut [u32]) -> Result<u64, Refusal> {
    let mut value = 0;
    // SAFETY: each pointer and length is a slice's, never null; `index` and `value` are borrowed apart from all else.
    let number =
        unsafe { pasoreum_walk(stream.as_ptr(), stream.len(), kind, index.as_mut_ptr(), index.len(), &mut value) };
    answered(number, value)
}

/// Reads an identity reply into an answer.
pub(crate) fn identity(bytes: &[u8], answer: &mut [u64]) -> Result<(), Refusal> {
    // SAFETY: each pointer and length is a slice's, never null; `answer` is borrowed apart from `bytes`.
    let number = unsafe { pasoreum_identity(bytes.as_ptr(), bytes.len(), answer.as_mut_ptr(), answer.len()) };
    answered(number, 0).map(|_| ())
}

/// Splits a rate into its whole part and 2^28ths.
pub(crate) fn split_rate(rate: f64) -> Result<(u32, u32), Refusal> {
    let (mut whole, mut fraction) = (0, 0);
    // SAFETY: the pointers are of two locals.
    let number = unsafe { pasoreum_split_rate(rate, &mut whole, &mut fraction) };
    answered(number, 0).map(|_| (whole, fraction))
}

/// Joins a whole part and 2^28ths.
pub(crate) fn join_rate(whole: u32, fraction: u32) -> f64 {
    // SAFETY: numbers alone.
    unsafe { pasoreum_join_rate(whole, fraction) }
}

/// Cents as a fraction of a semitone.
pub(crate) fn cents(cents: f32) -> u16 {
    // SAFETY: a number alone.
    unsafe { pasoreum_cents(cents) }
}

/// How many channels a set names.
pub(crate) fn channels(set: u16) -> u32 {
    // SAFETY: a number alone.
    unsafe { pasoreum_channels(set) }
}

/// The lowest channel of a set, or 0.
pub(crate) fn lowest_channel(set: u16) -> u32 {
    // SAFETY: a number alone.
    unsafe { pasoreum_lowest_channel(set) }
}

#[cfg(test)]
mod tests {
    use super::*;

    #[test]
    fn refusals_that_the_safe_types_rule_out() {
        let mut out = [9; 8];
        for numbers in [&[][..], &[0x0400, 0], &[0x0601, 257], &[0x7E00, 0, 256]] {
            let refused = write(numbers, &[], &[], &mut out, 0);
            assert_eq!(refused, Err(Refusal::NoMessage));
        }
        assert_eq!(out, [9; 8]);

        let frame = [0xF0, 0x7E, 0, 0x07, 0x02, 0, 1, 0x40, 0x7F, 0x45, 0xF7];
        let (mut data, mut answer) = ([9; 1], [9; READING]);
        let refused = read(&frame, 2, &mut data, &mut [], &mut answer);
        assert_eq!(refused, Err(Refusal::NoKind));
        let refused = read(&frame, 0, &mut data, &mut [], &mut answer[1..]);
        assert_eq!(refused, Err(Refusal::NoRoom));
        let refused = read(&frame, 0, &mut [], &mut [], &mut answer);
        assert_eq!(refused, Err(Refusal::Hold));
        assert_eq!((data, answer), ([9; 1], [9; READING]));
        assert_eq!(read(&frame, 0, &mut data, &mut [], &mut answer), Ok(()));
        assert_eq!((data, answer[0], answer[3]), ([0xFF], 3, 1));

        assert_eq!(walk(&frame, 2, &mut [0; 2]), Err(Refusal::NoKind));
        let refused = identity(&[6, 2], &mut [0; IDENTITY - 1]);
        assert_eq!(refused, Err(Refusal::NoRoom));
    }
}
