//! One class of comparisons: its random numbers, how many were made, how many differ; and the answer to spoil in a self-test.
use crate::cases::Rng;
use crate::calls::{Lent, Pattern};

pub struct Run {
    pub class: &'static str,
    pub rng: Rng,
    pub guard: usize,
    spoil: Option<&'static str>,
    pub compared: u64,
    /// how many of them with the crate too
    pub with_crate: u64,
    pub different: u64,
    pub said: u64,
    quiet: bool,
}
impl Run {
    pub fn new(class: &'static str, seed: u64, bare: bool, spoil: Option<&'static str>) -> Run {
        let salt = class.bytes().fold(seed, |h, b| h.wrapping_mul(31).wrapping_add(b as u64));
        Run { class, rng: Rng(salt), guard: if bare { 0 } else { 24 }, spoil, compared: 0, with_crate: 0, different: 0, said: 0, quiet: spoil.is_some() }
    }
    pub fn lend<T: Pattern>(&self, len: usize) -> Lent<T> {
        Lent::new(self.guard, len)
    }
    /// Whether the part of an answer named here is the one to spoil; true once.
    pub fn spoils(&mut self, part: &str) -> bool {
        let now = self.spoil == Some(part);
        if now {
            self.spoil = None;
        }
        now
    }
    /// The same for a place of lent memory, where there is such a place.
    pub fn spoil_place<T: Pattern>(&mut self, part: &str, lent: &mut Lent<T>, at: isize) {
        if lent.has(at) && self.spoils(part) {
            lent.spoil(at);
        }
    }
    /// Whether a spoiled answer was asked for and no case came that has it.
    pub fn unspoiled(&self) -> bool {
        self.spoil.is_some()
    }
    /// Counts one comparison; prints the first three that differ.
    pub fn compare(&mut self, same: bool, words: impl FnOnce() -> String) {
        self.compared += 1;
        if same {
            return;
        }
        self.different += 1;
        if self.said < 3 && !self.quiet {
            self.said += 1;
            let mut w = words();
            let mut n = w.len().min(1500);
            while !w.is_char_boundary(n) {
                n -= 1;
            }
            w.truncate(n);
            println!("  {}: {w}", self.class);
        }
    }
}
