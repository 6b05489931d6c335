//! The functions of include/pasoreum.h, and memory that is lent to them with a pattern in it and around it.
#[link(name = "pasoreum", kind = "static")]
extern "C" {
    fn pasoreum_write(
        numbers: *const u64, numbers_len: usize, text: *const u8, text_len: usize, entries: *const u64, entries_len: usize, out: *mut u8,
        out_len: usize, place: usize, value: *mut u64,
    ) -> u32;
    fn pasoreum_read(
        frame: *const u8, frame_len: usize, kind: u32, data: *mut u8, data_len: usize, entries: *mut u64, entries_len: usize,
        answer: *mut u64, answer_len: usize,
    ) -> u32;
    fn pasoreum_walk(stream: *const u8, stream_len: usize, kind: u32, index: *mut u32, index_len: usize, value: *mut u64) -> u32;
    fn pasoreum_identity(bytes: *const u8, bytes_len: usize, answer: *mut u64, answer_len: usize) -> u32;
    fn pasoreum_split_rate(rate: f64, whole: *mut u32, fraction: *mut u32) -> u32;
    fn pasoreum_join_rate(whole: u32, fraction: u32) -> f64;
    fn pasoreum_cents(cents: f32) -> u16;
    fn pasoreum_channels(set: u16) -> u32;
    fn pasoreum_lowest_channel(set: u16) -> u32;
}

pub const NO_MESSAGE: u32 = 64;
pub const NO_KIND: u32 = 65;
pub const NO_ROOM: u32 = 66;
pub const READING: usize = 20;
pub const IDENTITY: usize = 9;

/// What stands in lent memory before a call, by its place.
pub trait Pattern: Copy + PartialEq {
    fn at(i: usize) -> Self;
    fn changed(self) -> Self;
}
impl Pattern for u8 {
    fn at(i: usize) -> u8 {
        (i * 167 + 0xA5) as u8
    }
    fn changed(self) -> u8 {
        self ^ 1
    }
}
impl Pattern for u32 {
    fn at(i: usize) -> u32 {
        0xA5C3_0000 ^ (i as u32).wrapping_mul(2654435761)
    }
    fn changed(self) -> u32 {
        self ^ 1
    }
}
impl Pattern for u64 {
    fn at(i: usize) -> u64 {
        0xA5C3_96F0_0000_0000 ^ (i as u64).wrapping_mul(0x9E3779B97F4A7C15)
    }
    fn changed(self) -> u64 {
        self ^ 1
    }
}

/// Memory lent to be written: `len` places between two guards.
pub struct Lent<T> {
    all: Vec<T>,
    guard: usize,
    len: usize,
}
impl<T: Pattern> Lent<T> {
    pub fn new(guard: usize, len: usize) -> Lent<T> {
        Lent { all: (0..len + 2 * guard).map(T::at).collect(), guard, len }
    }
    pub fn len(&self) -> usize {
        self.len
    }
    pub fn slice(&self) -> &[T] {
        &self.all[self.guard..self.guard + self.len]
    }
    pub fn copy(&self) -> Vec<T> {
        self.slice().to_vec()
    }
    fn pointer(&mut self) -> *mut T {
        self.all[self.guard..].as_mut_ptr()
    }
    /// Whether the places from `at` on hold `now`, and all other places and the guards what they held before.
    pub fn holds(&self, at: usize, now: &[T]) -> bool {
        let from = self.guard + at;
        let to = from + now.len();
        to <= self.guard + self.len
            && self.all[from..to] == *now
            && self.all[..from].iter().enumerate().all(|(i, x)| *x == T::at(i))
            && self.all[to..].iter().enumerate().all(|(i, x)| *x == T::at(to + i))
    }
    /// Whether nothing was altered.
    pub fn kept(&self) -> bool {
        self.holds(0, &[])
    }
    /// Whether there is a place `at`, counted from the first lent; guards count too.
    pub fn has(&self, at: isize) -> bool {
        let i = self.guard as isize + at;
        i >= 0 && (i as usize) < self.all.len()
    }
    /// Alters the place `at`, so that a test of this program has to see it.
    pub fn spoil(&mut self, at: isize) {
        let i = (self.guard as isize + at) as usize;
        self.all[i] = self.all[i].changed();
    }
}

/// The value that stands where an answer is to be put.
pub const UNSET: u64 = 0xDEAD_BEEF_0BAD_F00D;

/// The same elements in memory of just their length, so that a checker of memory sees a read past them.
fn exact<T: Copy>(s: &[T]) -> Box<[T]> {
    s.into()
}
pub fn write(numbers: &[u64], text: &[u8], entries: &[u64], out: &mut Lent<u8>, place: usize) -> (u32, u64) {
    let (n, t, e) = (exact(numbers), exact(text), exact(entries));
    let mut value = UNSET;
    let r = unsafe {
        pasoreum_write(n.as_ptr(), n.len(), t.as_ptr(), t.len(), e.as_ptr(), e.len(), out.pointer(), out.len, place, &mut value)
    };
    assert!(*n == *numbers && *t == *text && *e == *entries, "pasoreum_write altered what it was lent to read");
    (r, value)
}
pub fn read(frame: &[u8], kind: u32, data: &mut Lent<u8>, entries: &mut Lent<u64>, answer: &mut Lent<u64>) -> u32 {
    let f = exact(frame);
    let r = unsafe {
        pasoreum_read(f.as_ptr(), f.len(), kind, data.pointer(), data.len, entries.pointer(), entries.len, answer.pointer(), answer.len)
    };
    assert!(*f == *frame, "pasoreum_read altered the frame");
    r
}
pub fn walk(stream: &[u8], kind: u32, index: &mut Lent<u32>) -> (u32, u64) {
    let s = exact(stream);
    let mut value = UNSET;
    let r = unsafe { pasoreum_walk(s.as_ptr(), s.len(), kind, index.pointer(), index.len, &mut value) };
    assert!(*s == *stream, "pasoreum_walk altered the stream");
    (r, value)
}
pub fn identity(bytes: &[u8], answer: &mut Lent<u64>) -> u32 {
    let b = exact(bytes);
    let r = unsafe { pasoreum_identity(b.as_ptr(), b.len(), answer.pointer(), answer.len) };
    assert!(*b == *bytes, "pasoreum_identity altered the bytes");
    r
}
pub fn split(rate: f64) -> (u32, u32, u32) {
    let (mut whole, mut fraction) = (UNSET as u32, UNSET as u32);
    let r = unsafe { pasoreum_split_rate(rate, &mut whole, &mut fraction) };
    (r, whole, fraction)
}
pub fn join(whole: u32, fraction: u32) -> f64 {
    unsafe { pasoreum_join_rate(whole, fraction) }
}
pub fn cents(c: f32) -> u16 {
    unsafe { pasoreum_cents(c) }
}
pub fn channels(set: u16) -> (u32, u32) {
    unsafe { (pasoreum_channels(set), pasoreum_lowest_channel(set)) }
}
