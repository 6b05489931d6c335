//! The walk: streams of frames that are joined, cut, damaged and nested, and of random bytes, against the model.
use crate::calls::{self, Lent, NO_KIND};
use crate::cases::*;
use crate::frames::bad_kind;
use crate::model::*;
use crate::run::Run;

const LONGEST: usize = 65_535;

/// A frame, seldom a long one.
fn small_frame(r: &mut Rng) -> Vec<u8> {
    loop {
        let head = heads()[r.below(36) as usize];
        if matches!(head, 0x0801 | 0x0804) && !r.one_in(20) || head == 0x0200 && !r.one_in(5) {
            continue;
        }
        let mut m = good_msg(r, head, true);
        if head != 0x0200 && !fixed16(head) {
            m.text.truncate(30);
            m.ent.truncate(4);
        }
        return frame(&m);
    }
}
/// A place inside a frame, behind its first byte.
fn inside(r: &mut Rng, f: &[u8]) -> usize {
    1 + r.below(f.len() as u64 - 1) as usize
}
fn piece(r: &mut Rng, s: &mut Vec<u8>) {
    let mut f = small_frame(r);
    let p = inside(r, &f);
    match r.below(14) {
        0..=4 => s.extend(f),
        5 => {
            f[p] = if r.one_in(2) { r.next() as u8 } else { r.next() as u8 & 127 };
            s.extend(f);
        }
        6 => s.extend(&f[..p]),
        7 => {
            // a frame inside a frame
            s.extend(&f[..p]);
            s.extend(small_frame(r));
            s.extend(&f[p..]);
        }
        8 => s.extend([0x90, 0x3C, 0x40, 0x80, 0x3C]),
        9 => {
            f.insert(p, r.pick(&[0xF8, 0xFE, 0xFF, 0x90, 0xF7, 0xF0, 0xF1]));
            s.extend(f);
        }
        10 => {
            let n = r.below(12) as usize;
            s.extend(bytes(r, n));
        }
        11 => s.push(r.pick(&[0xF7, 0xF0, 0xF8, 0x7E, 0x00])),
        12 => s.extend(&f[..f.len() - 1]),
        _ => s.extend(&f[1..]),
    }
}
/// Up to about `n` bytes: pieces, random bytes, or bytes of a few values with many F0 and F7.
fn stream(r: &mut Rng, n: usize) -> Vec<u8> {
    match r.below(8) {
        0 => bytes(r, n),
        1 => (0..n).map(|_| r.pick(&[0xF0, 0xF7, 0x7E, 0, 1, 6, 0x7B, 0x7F, 0xF0, 0xF7, 0xF8])).collect(),
        2 => {
            // short frames, some without their end
            let mut s = vec![];
            while s.len() < n {
                s.extend([0xF0, 0x7E, r.below(128) as u8, r.pick(&[6, 9, 0x7B, 0x7E, 5]), r.below(4) as u8]);
                if !r.one_in(5) {
                    s.push(0xF7);
                }
            }
            s
        }
        3 => {
            let f = small_frame(r);
            f.iter().copied().cycle().take(n).collect()
        }
        _ => {
            let mut s = vec![];
            while s.len() < n {
                piece(r, &mut s);
            }
            s
        }
    }
}
/// A stream for the case `i`: mostly short; the first eight and one of 400 long, up to and past the longest.
fn any_stream(r: &mut Rng, i: u64) -> Vec<u8> {
    if i >= 8 && i % 400 != 7 {
        let top = if r.one_in(10) { 3000 } else { 300 };
        let n = r.below(top) as usize;
        return stream(r, n);
    }
    let choice = if i < 8 { i } else { r.below(8) };
    let n = match choice {
        0..=2 => LONGEST,
        3 | 4 => LONGEST + 1,
        5 => LONGEST - 1,
        6 => LONGEST + 2 + r.below(100_000) as usize,
        _ => r.below(LONGEST as u64) as usize,
    };
    let mut s = stream(r, n);
    s.truncate(n);
    if n >= 6 && r.one_in(2) {
        // a frame at the very end
        s[n - 6..].copy_from_slice(&[0xF0, 0x7E, 1, 6, 1, 0xF7]);
    }
    s
}
/// The length of an index for `n` frames in a stream: exact, one pair fewer, odd, none, ample, a pair for every six bytes.
fn index_len(r: &mut Rng, n: usize, stream: usize) -> usize {
    match r.below(10) {
        0 if n > 0 => 2 * n - 2,
        1 if n > 0 => 2 * n - 1,
        2 => 2 * n + 1,
        3 => 0,
        4 => 2 * n + 2 + r.below(20) as usize,
        5 => stream / 6 * 2,
        6 => stream / 6 * 2 + 1 + r.below(9) as usize,
        _ => 2 * n,
    }
}
fn spoil(run: &mut Run, got: &mut (u32, u64), index: &mut Lent<u32>, pairs: Option<usize>) {
    if run.spoils("number") {
        got.0 ^= 1;
    }
    if run.spoils("value") {
        got.1 ^= 1;
    }
    match pairs {
        Some(n) => {
            if n > 0 {
                run.spoil_place("offset", index, 2 * n as isize - 2);
                run.spoil_place("length", index, 2 * n as isize - 1);
            }
            run.spoil_place("behind", index, 2 * n as isize);
            run.spoil_place("before", index, -1);
            let end = index.len() as isize;
            run.spoil_place("after", index, end);
        }
        None => {
            if index.len() > 0 {
                run.spoil_place("refused", index, 0);
            }
        }
    }
}
pub fn walked(run: &mut Run, count: u64) {
    for i in 0..count {
        let s = any_stream(&mut run.rng, i);
        let kind = run.rng.below(2) as u32;
        let frames = if s.len() > LONGEST { 20 } else { walk(&s, kind == 1).len() };
        let len = index_len(&mut run.rng, frames, s.len());
        let mut index = run.lend::<u32>(len);
        let (number, value, pairs) = walk_answer(&s, kind == 1, len as u64 / 2);
        let pairs: Vec<u32> = pairs.iter().map(|x| *x as u32).collect();
        let mut got = calls::walk(&s, kind, &mut index);
        spoil(run, &mut got, &mut index, (number == 0).then_some(pairs.len() / 2));
        let same = got == (number as u32, value) && index.holds(0, &pairs);
        run.compare(same, || {
            let shown = &s[..s.len().min(300)];
            format!("kind {kind}, index of {len}, {} bytes {shown:02X?}: answer {got:?}, model {:?}", s.len(), (number, value))
        });
    }
}
/// Kinds that are none, also with a stream that is too long.
pub fn no_kind(run: &mut Run, count: u64) {
    for i in 0..count {
        let kind = bad_kind(&mut run.rng);
        let s = any_stream(&mut run.rng, i);
        let len = run.rng.below(40) as usize;
        let mut index = run.lend::<u32>(len);
        let mut got = calls::walk(&s, kind, &mut index);
        spoil(run, &mut got, &mut index, None);
        run.compare(got == (NO_KIND, 0) && index.kept(), || format!("kind {kind}, {} bytes: answer {got:?}", s.len()));
    }
}
