//! Reading: whole and damaged frames for both kinds of sound file, against the model.
use crate::calls::{self, Lent, NO_KIND, NO_ROOM, READING};
use crate::cases::*;
use crate::messages::numbers_of;
use crate::model::*;
use crate::run::Run;

/// Puts the right checksum before F7.
fn mend(f: &mut [u8]) {
    let n = f.len();
    if n > 4 {
        f[n - 2] = xor(&f[1..n - 2]) & 127;
    }
}
/// One byte changed, taken out, put in, or the frame cut.
fn damage(r: &mut Rng, f: &mut Vec<u8>) {
    if f.is_empty() {
        return;
    }
    let p = r.below(f.len() as u64) as usize;
    match r.below(12) {
        0 => f[p] = r.next() as u8,
        1..=3 => f[p] = r.next() as u8 & 127,
        4 => {
            f.remove(p);
        }
        5 => f.insert(p, r.next() as u8 & 127),
        6 => f[p] = r.pick(&[0, 1, 2, 3, 7, 8, 9, 15, 16, 17, 0x40, 0x7C, 0x7D, 0x7F]),
        7 => {
            f.truncate(p);
            f.push(0xF7);
        }
        8 => f.insert(p, r.pick(&[0xF8, 0xFE, 0xFF, 0xF0, 0xF7, 0x80])),
        9 if f.len() > 5 => {
            // among the first fields, where most tests are
            let q = 3 + r.below(12.min(f.len() as u64 - 4)) as usize;
            f[q] = r.next() as u8 & 127;
        }
        10 if f.len() > 2 => {
            // one more before the checksum and F7
            let q = f.len() - 2;
            f.insert(q, r.below(128) as u8);
        }
        _ => f[p] ^= 1 << r.below(7),
    }
}
/// A frame of a head, damaged three times of four.
fn any_frame(r: &mut Rng, head: u32) -> Vec<u8> {
    let mut f = frame(&good_msg(r, head, true));
    if r.one_in(4) {
        return f;
    }
    for _ in 0..1 + r.below(3) {
        damage(r, &mut f);
    }
    if r.one_in(2) {
        mend(&mut f);
    }
    f
}
/// Where the name, URL or sample bytes of a head begin in the frame.
fn text_place(head: u32) -> Option<u64> {
    Some(match head {
        0x0200 => 5,
        0x0503 => 9,
        0x0701 => 14,
        0x0703 => 10,
        0x0801 => 6,
        0x0804 | 0x0805 | 0x0806 => 7,
        0x0B01 | 0x0B03 => 13,
        _ => return None,
    })
}
/// Lent places where a message takes `n`: exact, one fewer, none, ample.
fn places(r: &mut Rng, n: usize) -> usize {
    match r.below(8) {
        0 if n > 0 => n - 1,
        1 => 0,
        2 | 3 => n + 1 + r.below(20) as usize,
        _ => n,
    }
}
struct Space {
    data: Lent<u8>,
    entries: Lent<u64>,
    answer: Lent<u64>,
}
impl Space {
    fn kept(&self) -> bool {
        self.data.kept() && self.entries.kept() && self.answer.kept()
    }
    /// Spoils what a refused call has to keep.
    fn spoil_refused(&mut self, run: &mut Run) {
        if self.data.len() > 0 {
            run.spoil_place("refused data", &mut self.data, 0);
        }
        if self.entries.len() > 0 {
            run.spoil_place("refused entries", &mut self.entries, 0);
        }
        if self.answer.len() > 0 {
            run.spoil_place("refused answer", &mut self.answer, 0);
        }
    }
    fn spoil_read(&mut self, run: &mut Run, m: &Msg) {
        let (d, e) = needs(m);
        run.spoil_place("count", &mut self.answer, 0);
        run.spoil_place("from", &mut self.answer, 1);
        run.spoil_place("len", &mut self.answer, 2);
        run.spoil_place("places", &mut self.answer, 3);
        run.spoil_place("field", &mut self.answer, 5 + m.f.len() as isize);
        run.spoil_place("behind", &mut self.answer, 6 + m.f.len() as isize);
        run.spoil_place("before", &mut self.answer, -1);
        let end = self.answer.len() as isize;
        run.spoil_place("after", &mut self.answer, end);
        if d > 0 {
            run.spoil_place("data", &mut self.data, d as isize - 1);
        }
        run.spoil_place("data behind", &mut self.data, d as isize);
        if e > 0 {
            run.spoil_place("entry", &mut self.entries, e as isize - 1);
        }
        run.spoil_place("entry behind", &mut self.entries, e as isize);
    }
    /// Whether the space says the message: its numbers, its part of the frame, its file data or entries, and nothing else altered.
    fn says(&self, m: &Msg, frame: &[u8]) -> bool {
        let is_data = m.head == 0x0702;
        let (d, e) = needs(m);
        let numbers = numbers_of(m);
        let len = if is_data { 0 } else { m.text.len() };
        // a message without a text names the part 0, 0 of the frame
        let from = text_place(m.head).unwrap_or(0);
        if from as usize + len > frame.len() || (!is_data && frame[from as usize..][..len] != m.text[..]) {
            return false;
        }
        let head = [numbers.len() as u64, from, len as u64, (d + e) as u64];
        self.answer.holds(0, &[&head[..], &numbers].concat())
            && self.data.holds(0, if is_data { &m.text } else { &[] })
            && self.entries.holds(0, &m.ent)
    }
}
fn space(run: &mut Run, data: usize, entries: usize, answer: usize) -> Space {
    Space { data: run.lend(data), entries: run.lend(entries), answer: run.lend(answer) }
}
pub fn read(run: &mut Run, count: u64) {
    for i in 0..count {
        let f = any_frame(&mut run.rng, heads()[(i % 36) as usize]);
        for kind in 0..2u32 {
            let (d, e) = read_frame(&f, kind == 1).map_or((3, 3), |m| needs(&m));
            let (d, e) = (places(&mut run.rng, d), places(&mut run.rng, e));
            let a = READING + if run.rng.one_in(2) { 0 } else { run.rng.below(9) as usize };
            let mut s = space(run, d, e, a);
            let want = model_read(&f, kind == 1, d, e);
            let mut got = calls::read(&f, kind, &mut s.data, &mut s.entries, &mut s.answer);
            let same = match &want {
                Ok(m) => {
                    if run.spoils("number") {
                        got ^= 1;
                    }
                    s.spoil_read(run, m);
                    got == 0 && s.says(m, &f)
                }
                Err(n) => {
                    if run.spoils("refused") {
                        got ^= 1;
                    }
                    s.spoil_refused(run);
                    got == *n as u32 && s.kept()
                }
            };
            run.compare(same, || {
                format!("kind {kind}, {d} and {e} places, frame {f:02X?}: answer {got} {:?}, model {want:?}", s.answer.slice())
            });
        }
    }
}
fn model_read(f: &[u8], wav: bool, d: usize, e: usize) -> Result<Msg, u8> {
    crate::model::read(f, wav, d as u64, e as u64)
}
/// A number that names no kind.
pub fn bad_kind(r: &mut Rng) -> u32 {
    match r.below(3) {
        0 => r.pick(&[2, 3, 127, 255, 256, 257, 65536, 65537, 1 << 31, (1 << 31) + 1, u32::MAX, u32::MAX - 1]),
        1 => 2 + r.below(300) as u32,
        _ => (r.next() as u32).max(2),
    }
}
/// Kinds that are none, some with a short answer too: the kind is refused first.
pub fn no_kind(run: &mut Run, count: u64) {
    for i in 0..count {
        let kind = bad_kind(&mut run.rng);
        let answer = if run.rng.one_in(4) { run.rng.below(20) } else { 20 + run.rng.below(5) } as usize;
        refused(run, i, kind, answer, NO_KIND);
    }
}
pub fn no_room(run: &mut Run, count: u64) {
    for i in 0..count {
        let kind = run.rng.below(2) as u32;
        let answer = run.rng.below(READING as u64) as usize;
        refused(run, i, kind, answer, NO_ROOM);
    }
}
fn refused(run: &mut Run, i: u64, kind: u32, answer: usize, want: u32) {
    let f = any_frame(&mut run.rng, heads()[(i % 36) as usize]);
    let (d, e) = (places(&mut run.rng, 111), places(&mut run.rng, 128));
    let mut s = space(run, d, e, answer);
    let mut got = calls::read(&f, kind, &mut s.data, &mut s.entries, &mut s.answer);
    if run.spoils("number") {
        got ^= 1;
    }
    s.spoil_refused(run);
    run.compare(got == want && s.kept(), || format!("kind {kind}, {answer} numbers, frame {f:02X?}: answer {got}"));
}
