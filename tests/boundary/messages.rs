//! Writing: messages as numbers against the model and the crate; lent text and entries of any kind; numbers that are no message.
use crate::calls::{self, NO_MESSAGE};
use crate::cases::*;
use crate::crate_side::{crate_frame, stand, Stand};
use crate::model::*;
use crate::run::Run;

pub fn numbers_of(m: &Msg) -> Vec<u64> {
    let mut n = vec![m.head as u64, m.dev];
    n.extend(&m.f);
    n
}
/// An output's length and a place in it for a frame of `n` bytes: exact, one short, ample, past the end.
fn room(r: &mut Rng, n: usize) -> (usize, usize) {
    let place = if r.one_in(4) { 0 } else { r.below(60) as usize };
    match r.below(20) {
        0..=7 => (place + n, place),
        8 | 9 => (place + n - 1, place),
        10..=16 => (place + n + 1 + r.below(50) as usize, place),
        17 => (place, place),
        18 => (place, place + 1 + r.below(9) as usize),
        _ => (place, r.pick(&[usize::MAX, usize::MAX - n, usize::MAX / 2, 1 << 32])),
    }
}
/// What a message says, for a difference that is printed.
fn words(m: &Msg, got: (u32, u64), want: (u8, u64), len: usize, place: usize) -> String {
    let f: Vec<i64> = m.f.iter().map(|x| *x as i64).collect();
    format!(
        "head {:04X} device {} fields {f:?} text {:02X?} entries {:X?} in {len} bytes at {place}: answer {got:?}, model {want:?}",
        m.head, m.dev, m.text, m.ent
    )
}
/// Writes numbers, text and entries, and holds answer, value and output to the model's for `m`; the frame where one is written.
fn hold(run: &mut Run, m: &Msg, numbers: &[u64], text: &[u8], entries: &[u64]) -> (bool, Option<Vec<u8>>, String) {
    let n = if refusal(m) == 0 { frame(m).len() } else { 40 };
    let (len, place) = room(&mut run.rng, n);
    let mut out = run.lend::<u8>(len);
    let mut want_out = out.copy();
    let want = write_into(m, &mut want_out, place);
    let mut got = calls::write(numbers, text, entries, &mut out, place);
    if run.spoils("number") {
        got.0 ^= 1;
    }
    if run.spoils("value") {
        got.1 ^= 1;
    }
    if want.0 == 0 {
        run.spoil_place("byte", &mut out, place as isize);
        run.spoil_place("before", &mut out, place as isize - 1);
        run.spoil_place("after", &mut out, (place + n) as isize);
    }
    let same = got == (want.0 as u32, want.1) && out.holds(0, &want_out);
    let written = (same && want.0 == 0).then(|| out.slice()[place..place + n].to_vec());
    let said = if same { String::new() } else { words(m, got, want, len, place) };
    (same, written, said)
}
/// Whether a written frame is the crate's, but for the byte before F7 where scope and crate part; None where they are not compared.
fn is_the_crates(run: &mut Run, m: &Msg, frame: &[u8]) -> Option<bool> {
    let stands = stand(m);
    match stands {
        Stand::Refused(..) | Stand::NoRate => return None,
        // the last two are of document 02
        Stand::Differs | Stand::FileCount | Stand::TextAlone => return Some(false),
        Stand::Equal | Stand::ScaleDumpSum | Stand::TwelfthNote => {}
    }
    let mut c = match crate_frame(m, None) {
        Some(Ok(c)) => c,
        _ => return Some(false),
    };
    if run.spoils("crate") {
        c[2] ^= 1;
    }
    let n = frame.len();
    let rest = c.len() == n && c[..n - 2] == frame[..n - 2] && c[n - 1] == frame[n - 1];
    Some(rest && (stands != Stand::Equal || c[n - 2] == frame[n - 2]))
}
pub fn written(run: &mut Run, count: u64) {
    for i in 0..count {
        let head = heads()[(i % 36) as usize];
        let m = if i / 36 % 3 == 0 { good_msg(&mut run.rng, head, false) } else { any_msg(&mut run.rng, head, false) };
        let (mut same, frame, mut said) = hold(run, &m, &numbers_of(&m), &m.text, &m.ent);
        if let Some(f) = frame {
            if let Some(s) = is_the_crates(run, &m, &f) {
                run.with_crate += 1;
                if !s {
                    same = false;
                    said = format!("head {:04X}: {f:02X?} is not the crate's", m.head);
                }
            }
        }
        run.compare(same, || said);
    }
}

/// Names of any length, entries of any 64 bits, and text and entries that a message does not use.
pub fn loose(run: &mut Run, count: u64) {
    for i in 0..count {
        let head = heads()[(i % 36) as usize];
        let r = &mut run.rng;
        let mut m = any_msg(r, head, true);
        let (mut text, mut entries) = (m.text.clone(), m.ent.clone());
        if fixed16(head) {
            let n = r.below(40) as usize;
            text = bytes(r, n).iter().map(|b| b & 127).collect();
            if n > 0 && r.one_in(8) {
                let at = r.below(n as u64) as usize;
                text[at] |= 128;
            }
            m.text = text.clone();
            if m.text.iter().all(|b| *b < 128) {
                m.text.resize(16, 0x20);
            }
        }
        if text_limit(head).is_none() {
            let n = r.below(30) as usize;
            text = bytes(r, n);
        }
        if entry_limit(&m).is_some() {
            for e in entries.iter_mut() {
                if r.one_in(2) {
                    *e = r.next() >> r.below(40);
                }
            }
            m.ent = entries.clone();
            if matches!(head, 0x0B02 | 0x0B03) {
                // a target bank above 65,535 counts as 65,535
                for e in m.ent.iter_mut().filter(|e| **e >> 58 != 0) {
                    *e = *e & ((1 << 42) - 1) | 65535 << 42;
                }
            }
        } else {
            entries = (0..r.below(10)).map(|_| r.next()).collect();
        }
        let (same, _, said) = hold(run, &m, &numbers_of(&m), &text, &entries);
        run.compare(same, || said);
    }
}

/// A number that does not fit its field; None where every number does.
fn misfit(r: &mut Rng, k: K) -> Option<u64> {
    let above = |r: &mut Rng, least: u64| match r.below(4) {
        0 => least,
        1 => least + r.below(300),
        2 => u64::MAX - r.below(300),
        _ => least.max(r.next() >> r.below(32)),
    };
    let signed = |r: &mut Rng, top: i64| match r.below(5) {
        0 => top as u64,
        1 => (-top - 1) as u64,
        2 => (top + r.below(70_000) as i64) as u64,
        3 => (-top - 1 - r.below(70_000) as i64) as u64,
        _ => r.pick(&[i64::MAX, i64::MIN, 1 << 32, -(1 << 32)]) as u64,
    };
    let none_of = |r: &mut Rng, good: &[u64]| loop {
        let v = match r.below(3) {
            0 => r.below(256),
            1 => r.pick(good) + r.pick(&[256, 1 << 8, 1 << 32, 1 << 56]),
            _ => r.next() >> r.below(56),
        };
        if !good.contains(&v) {
            return v;
        }
    };
    Some(match k {
        K::U7 | K::Format | K::Mk => above(r, 256),
        K::U14 | K::Chan => above(r, 65536),
        K::U21 | K::U28 | K::Type => above(r, 1 << 32),
        K::U35 => return None,
        K::S7 => signed(r, 128),
        K::S14 => signed(r, 32768),
        K::LoopNum => above(r, 65537),
        K::Dev | K::BankOpt => above(r, 257),
        K::FileKind => above(r, 3),
        K::MapForm => above(r, 4),
        K::MkForm | K::Drum => above(r, 2),
        K::Loop | K::XLoop => {
            let good = boundary(0, 0, k);
            none_of(r, &good)
        }
    })
}
fn head_that_is_none(r: &mut Rng) -> u64 {
    let h = match r.below(5) {
        0 => r.below(65536),
        1 => r.next(),
        2 => r.pick(heads()) as u64 + (1 << (16 + r.below(48))),
        3 => (r.pick(heads()) as u64).wrapping_add(r.pick(&[1, u64::MAX, 256, 0x80])),
        _ => r.pick(&[0, 1, 0x0400, 0x0401, 0x0500, 0x0508, 0x0600, 0x0603, 0x0700, 0x0704, 0x0802, 0x080A, 0x0900, 0x0904, 0x0B00, 0x0B05, 0x7E01, 0xFFFF]),
    };
    if h < 65536 && heads().contains(&(h as u32)) {
        0x0A00
    } else {
        h
    }
}
/// The numbers of a message with one mistake in them.
fn with_mistake(r: &mut Rng, m: &Msg) -> Vec<u64> {
    let mut n = numbers_of(m);
    let sp = spec(m.head);
    match r.below(6) {
        0 => n[0] = head_that_is_none(r),
        1 => n.truncate(r.below(n.len() as u64) as usize),
        2 => {
            for _ in 0..1 + r.below(4) {
                n.push(if r.one_in(2) { 0 } else { r.next() >> r.below(64) });
            }
        }
        3 | 4 if matches!(m.head, 0x0B02 | 0x0B03) => {
            // a number that the form does not use
            let a = 2 + map_at(m.head);
            let unused: &[usize] = match n[a] {
                0 => &[1, 2, 3, 4, 5, 6, 7, 8, 9],
                1 => &[3, 4, 5, 6, 7, 8, 9],
                2 => &[1, 2],
                _ => &[],
            };
            match unused {
                [] => n[a] = misfit(r, K::MapForm).unwrap(),
                u => n[a + r.pick(u)] = if r.one_in(2) { 1 } else { r.next() | 1 },
            }
        }
        3 | 4 if m.head == 0x0602 && n[2] == 0 => n[4] = 1 + r.below(300),
        3 => n[1] = misfit(r, K::Dev).unwrap(),
        _ => {
            let fields: Vec<usize> = (0..sp.len()).filter(|i| sp[*i] != K::U35).collect();
            match fields[..] {
                [] => n[1] = misfit(r, K::Dev).unwrap(),
                _ => {
                    let i = r.pick(&fields);
                    n[2 + i] = misfit(r, sp[i]).unwrap();
                }
            }
        }
    }
    n
}
pub fn malformed(run: &mut Run, count: u64) {
    for i in 0..count {
        let m = any_msg(&mut run.rng, heads()[(i % 36) as usize], true);
        let n = with_mistake(&mut run.rng, &m);
        let size = if refusal(&m) == 0 { frame(&m).len() } else { 40 };
        let (len, place) = room(&mut run.rng, size);
        let mut out = run.lend::<u8>(len);
        let mut got = calls::write(&n, &m.text, &m.ent, &mut out, place);
        if run.spoils("number") {
            got.0 ^= 1;
        }
        if run.spoils("value") {
            got.1 ^= 1;
        }
        if len > 0 {
            run.spoil_place("byte", &mut out, 0);
        }
        run.spoil_place("before", &mut out, -1);
        run.spoil_place("after", &mut out, len as isize);
        run.compare(got == (NO_MESSAGE, 0) && out.kept(), || format!("numbers {n:X?}: answer {got:?}"));
    }
}
