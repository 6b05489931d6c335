//! Identity reading, rates, cents and channel sets, against the model and the crate.
use crate::calls::{self, IDENTITY, NO_ROOM};
use crate::cases::*;
use crate::crate_side::{crate_frame, crate_identity};
use crate::model::*;
use crate::run::Run;

/// An identity reply from its head on: often whole, else cut, with high bytes, with another head, with bytes behind it.
fn identity_bytes(r: &mut Rng) -> Vec<u8> {
    let n = if r.one_in(3) { r.below(20) } else { 10 + r.below(6) } as usize;
    let mut b = bytes(r, n);
    let high = r.below(4);
    for x in b.iter_mut() {
        if high != 0 && !(high == 1 && r.one_in(8)) {
            *x &= 127;
        }
    }
    if n > 1 && !r.one_in(10) {
        b[0] = 6;
        b[1] = 2;
    }
    if n > 2 && r.one_in(2) {
        b[2] = r.pick(&[0, 0, 0, 1, 0x7C, 0x7D, 0x7F, 0x80]);
    }
    b
}
pub fn identities(run: &mut Run, count: u64) {
    for _ in 0..count {
        let b = identity_bytes(&mut run.rng);
        let len = IDENTITY + if run.rng.one_in(2) { 0 } else { run.rng.below(6) as usize };
        let mut answer = run.lend::<u64>(len);
        let want = identity(&b);
        let mut theirs = crate_identity(&b);
        let mut got = calls::identity(&b, &mut answer);
        if run.spoils("number") {
            got ^= 1;
        }
        if run.spoils("crate") {
            theirs = Err(99);
        }
        if want.is_ok() {
            run.spoil_place("field", &mut answer, IDENTITY as isize - 1);
            run.spoil_place("behind", &mut answer, IDENTITY as isize);
            run.spoil_place("before", &mut answer, -1);
        } else {
            run.spoil_place("refused", &mut answer, 0);
        }
        let same = match &want {
            Ok(o) => got == 0 && answer.holds(0, o),
            Err(e) => got == *e as u32 && answer.kept(),
        };
        run.with_crate += 1;
        run.compare(same && theirs == want, || format!("{b:02X?}: answer {got} {:?}, model {want:?}, crate {theirs:?}", answer.slice()));
    }
}
pub fn short_identities(run: &mut Run, count: u64) {
    for _ in 0..count {
        let b = identity_bytes(&mut run.rng);
        let len = run.rng.below(IDENTITY as u64) as usize;
        let mut answer = run.lend::<u64>(len);
        let mut got = calls::identity(&b, &mut answer);
        if run.spoils("number") {
            got ^= 1;
        }
        if len > 0 {
            run.spoil_place("refused", &mut answer, 0);
        }
        run.compare(got == NO_ROOM && answer.kept(), || format!("{len} numbers, {b:02X?}: answer {got}"));
    }
}

/// The bits of a rate: any, below 2^28, in 2^28ths, below zero, about the edges of the format and of a pair.
fn rate_bits(r: &mut Rng) -> u64 {
    match r.below(8) {
        0 => r.next(),
        1 => (r.below(1 << 28) as f64 + (r.next() >> 11) as f64 / 9007199254740992.0).to_bits(),
        2 => ((r.next() >> r.below(64)) as f64 / 268435456.0).to_bits(),
        3 => (-(r.below(1000) as f64) / 3.0).to_bits(),
        4 => (1023 - 30 + r.below(60)) << 52 | r.next() >> 12,
        5 => {
            let j = rate_join(r.below(1 << 17), r.below(1 << 28));
            (j as i64 + r.below(3) as i64 - 1).max(0) as u64
        }
        6 => {
            let x: f64 = r.pick(&[
                0.0, 1.0, 44100.0, 44100.5, 48000.0, 33554432.0, 67108864.0, 134217728.0, 268435455.0, 268435456.0, 1e300, f64::INFINITY,
                f64::MAX, f64::MIN_POSITIVE, 5e-324, 3.725290298461914e-9, 0.5, 2684354561.0, 4294967296.0,
            ]);
            let near = (x.to_bits() as i64 + r.below(5) as i64 - 2).max(0) as u64;
            near | r.below(2) << 63
        }
        _ => r.pick(&[0x7FF8000000000000, 0xFFF8000000000000, 0x7FF0000000000001, 0xFFF0000000000001, u64::MAX, 1 << 63]),
    }
}
/// The frame of an extended header with a rate of two numbers, as it is written here.
fn header_frame(run: &mut Run, whole: u32, fraction: u32) -> Vec<u8> {
    let numbers = [0x0505, 0, 0, 8, whole as u64, fraction as u64, 0, 0, 0, 0, 0];
    let mut out = run.lend::<u8>(40);
    let (r, n) = calls::write(&numbers, &[], &[], &mut out, 0);
    if r == 0 && n as usize <= 40 { out.slice()[..n as usize].to_vec() } else { vec![] }
}
pub fn splits(run: &mut Run, count: u64) {
    for _ in 0..count {
        let bits = rate_bits(&mut run.rng);
        let rate = f64::from_bits(bits);
        let want = rate_split(bits);
        let mut got = calls::split(rate);
        if run.spoils("number") {
            got.0 ^= 1;
        }
        if run.spoils("whole") {
            got.1 ^= 1;
        }
        if run.spoils("fraction") {
            got.2 ^= 1;
        }
        let mut same = match want {
            Ok((w, f)) => got == (0, w as u32, f as u32),
            Err(e) => got == (e as u32, 0, 0),
        };
        if same && want.is_ok() {
            // the crate is given the rate itself
            let m = Msg { head: 0x0505, f: vec![0, 8, got.1 as u64, got.2 as u64, 0, 0, 0, 0, 0], ..Default::default() };
            let mut theirs = crate_frame(&m, Some(rate)).unwrap().unwrap_or_default();
            if run.spoils("crate") {
                theirs[9] ^= 1;
            }
            run.with_crate += 1;
            same = theirs == header_frame(run, got.1, got.2);
        }
        run.compare(same, || format!("rate {rate} ({bits:016X}): answer {got:?}, model {want:?}"));
    }
}
pub fn joins(run: &mut Run, count: u64) {
    for _ in 0..count {
        let r = &mut run.rng;
        let number = |r: &mut Rng| -> u32 {
            let top = (1u64 << 28) - 1;
            match r.below(6) {
                0 => r.pick(&[0, 1, 44100, (1 << 25) - 1, 1 << 25, (1 << 25) + 1, 1 << 26, 1 << 27, top - 8, top - 4, top - 1, top]) as u32,
                1 => r.below(16) as u32,
                2 => r.next() as u32 >> r.below(8),
                _ => (r.below(1 << 28) >> (r.below(4) * r.below(8))) as u32,
            }
        };
        let (w, f) = (number(r), number(r));
        let mut got = calls::join(w, f).to_bits();
        if run.spoils("bits") {
            got ^= 1;
        }
        let want = rate_join(w as u64, f as u64);
        run.compare(got == want, || format!("join of {w} and {f}: answer {got:016X}, model {want:016X}"));
    }
}
pub fn cents_of(run: &mut Run, count: u64) {
    for _ in 0..count {
        let r = &mut run.rng;
        let bits = match r.below(5) {
            0 => r.next() as u32,
            1 => (r.below(1 << 24) as f32 / (1 << 24) as f32 * 100.0).to_bits(),
            2 => {
                let c: f32 = r.pick(&[0.0, 100.0, 50.0, 99.99, f32::INFINITY, f32::MAX, f32::MIN_POSITIVE, 1e-45, 0.0030519, 99.99695]);
                (c.to_bits() as i64 + r.below(3) as i64 - 1).max(0) as u32 | (r.below(2) as u32) << 31
            }
            _ => {
                // beside a half, where the answer turns over
                let c = ((r.below(16384) as f64 + 0.5) * 100.0 / 16383.0) as f32;
                (c.to_bits() as i64 + r.below(7) as i64 - 3) as u32
            }
        };
        let c = f32::from_bits(bits);
        let mut got = calls::cents(c) as u64;
        let want = cents(bits);
        let mut theirs = midi_msg::door_cents(c) as u64;
        if run.spoils("fraction") {
            got ^= 1;
        }
        if run.spoils("crate") {
            theirs ^= 1;
        }
        run.with_crate += 1;
        run.compare(got == want && theirs == want, || format!("cents {c} ({bits:08X}): answer {got}, model {want}, crate {theirs}"));
    }
}
pub fn channel_sets(run: &mut Run, _: u64) {
    for set in 0..=u16::MAX {
        let mut got = calls::channels(set);
        if run.spoils("count") {
            got.0 ^= 1;
        }
        if run.spoils("lowest") {
            got.1 ^= 1;
        }
        run.compare(got == channels(set), || format!("set {set:04X}: answer {got:?}"));
    }
}
