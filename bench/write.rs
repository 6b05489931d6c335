// Times pasoreum_write and the crate's writer on the same eight messages, in one run: the crate on a message that was made before, and the crate
// making the message of the same numbers and writing it. Each writes into a buffer that is kept and not cleared.
use bstr::BString;
use midi_msg::timed;
use midi_msg::*;
use std::hint::black_box;
use std::time::Instant;

unsafe extern "C" {
    fn pasoreum_write(numbers: *const u64, numbers_len: usize, text: *const u8, text_len: usize, entries: *const u64, entries_len: usize, out: *mut u8, out_len: usize, place: usize, value: *mut u64) -> u32;
}

const GOAL: f64 = 1.0;
const ROUNDS: usize = 15;

// A message as numbers, beside its text and entries.
struct Numbers<'a> {
    numbers: &'a [u64],
    text: &'a [u8],
    entries: &'a [u64],
}

fn tuning(t: u64) -> Option<Tuning> {
    if t == 1 << 24 { None } else { Some(Tuning { semitone: (t >> 16) as u8, fraction: t as u16 }) }
}

fn map(e: u64) -> SoundFileMap {
    SoundFileMap {
        dst_bank: (e >> 42) as u16,
        dst_prog: (e >> 34) as u8,
        src_bank: (e >> 18) as u16,
        src_prog: (e >> 10) as u8,
        src_drum: e >> 9 & 1 == 1,
        dst_drum: e >> 8 & 1 == 1,
        volume: e as u8,
    }
}

fn file_type(n: u64) -> FileReferenceType {
    match n {
        0 => FileReferenceType::DLS,
        1 => FileReferenceType::SF2,
        _ => FileReferenceType::WAV,
    }
}

fn loop_type(n: u64) -> LoopType {
    match n {
        0 => LoopType::Forward,
        1 => LoopType::BiDirectional,
        _ => LoopType::Off,
    }
}

// The crate's message of the numbers, for the eight heads; no number is tested.
fn make(m: &Numbers) -> SystemExclusiveMsg {
    use UniversalNonRealTimeMsg as U;
    let f = &m.numbers[2..];
    let name = || -> [u8; 16] { m.text.try_into().unwrap() };
    let msg = match m.numbers[0] {
        0x7E00 => U::NAK(f[0] as u8),
        0x0100 => U::SampleDump(SampleDumpMsg::Header {
            sample_num: f[0] as u16,
            format: f[1] as u8,
            period: f[2] as u32,
            length: f[3] as u32,
            sustain_loop_start: f[4] as u32,
            sustain_loop_end: f[5] as u32,
            loop_type: loop_type(f[6]),
        }),
        0x0200 => U::SampleDump(SampleDumpMsg::Packet { running_count: f[0] as u8, data: m.text.to_vec() }),
        0x0505 => U::ExtendedSampleDump(ExtendedSampleDumpMsg::Header {
            sample_num: f[0] as u16,
            format: f[1] as u8,
            sample_rate: f[2] as f64 + f[3] as f64 / 268435456.0,
            length: f[4],
            sustain_loop_start: f[5],
            sustain_loop_end: f[6],
            loop_type: if f[7] == 0 { ExtendedLoopType::Forward } else { ExtendedLoopType::OneShot },
            num_channels: f[8] as u8,
        }),
        0x0702 => U::FileDump(FileDumpMsg::Packet { running_count: f[0] as u8, data: m.text.to_vec() }),
        0x0801 => U::KeyBasedTuningDump(KeyBasedTuningDump {
            tuning_program_num: f[0] as u8,
            tuning_bank_num: None,
            name: name(),
            tunings: m.entries.iter().map(|t| tuning(*t)).collect(),
        }),
        0x0806 => U::ScaleTuningDump2Byte(ScaleTuningDump2Byte {
            tuning_bank_num: f[0] as u8,
            tuning_program_num: f[1] as u8,
            name: name(),
            tuning: core::array::from_fn(|i| f[2 + i] as i16),
        }),
        _ => U::FileReference(FileReferenceMsg::OpenSelectContents {
            ctx: f[0] as u16,
            file_type: file_type(f[1]),
            url: BString::from(m.text.to_vec()),
            map: SelectMap::SoundFile(m.entries.iter().map(|e| map(*e)).collect()),
        }),
    };
    let device = if m.numbers[1] == 256 { DeviceID::AllCall } else { DeviceID::Device(m.numbers[1] as u8) };
    SystemExclusiveMsg::UniversalNonRealTime { device, msg }
}

fn here(m: &Numbers, out: &mut [u8]) -> usize {
    let mut value = 0;
    let r = unsafe {
        pasoreum_write(m.numbers.as_ptr(), m.numbers.len(), m.text.as_ptr(), m.text.len(), m.entries.as_ptr(), m.entries.len(), out.as_mut_ptr(), out.len(), 0, &mut value)
    };
    if r == 0 { value as usize } else { 0 }
}

// One run, in nanoseconds a message.
fn time(times: usize, mut write: impl FnMut()) -> f64 {
    let t = Instant::now();
    for _ in 0..times {
        write();
    }
    t.elapsed().as_nanos() as f64 / times as f64
}

fn verdict(ratio: f64) -> &'static str {
    if ratio < GOAL + 0.005 { "met" } else { "missed" }
}

// One row: the least times of the rounds, each round in turns.
fn row(name: &str, m: Numbers) {
    let before = make(&m);
    let mut v: Vec<u8> = Vec::with_capacity(2048);
    let mut out = [0u8; 2048];
    timed::write(&before, &mut v);
    let n = here(&m, &mut out);
    // the byte before F7 of a scale dump is the checksum; the crate leaves 00
    let parts = m.numbers[0] == 0x0806 && n > 2;
    assert!(v.len() == n && (0..n).all(|i| v[i] == out[i] || parts && i == n - 2), "{name} differs");
    let times = 4_000_000 / (n + 20);
    let (mut a, mut b, mut c) = (f64::MAX, f64::MAX, f64::MAX);
    for _ in 0..ROUNDS {
        // each of the three gets its input through one black_box, which costs them the same
        a = a.min(time(times, || {
            v.clear();
            timed::write(black_box(&before), &mut v);
        }));
        b = b.min(time(times, || {
            v.clear();
            timed::write(&make(black_box(&m)), &mut v);
        }));
        c = c.min(time(times, || {
            here(black_box(&m), &mut out);
        }));
    }
    println!("{name:<26} {n:>6} {a:>9.1} {b:>9.1} {c:>9.1} {:>7.2} {:>7.2} {GOAL:>6.2}  {}, {}", c / a, c / b, verdict(c / a), verdict(c / b));
}

fn main() {
    let samples: Vec<u8> = (0..120).map(|i| (i * 7 % 128) as u8).collect();
    let data: Vec<u8> = (0..111).map(|i| (i * 37 % 256) as u8).collect();
    let tunings: Vec<u64> = (0..128u64).map(|i| if i % 9 == 0 { 1 << 24 } else { i << 16 | i * 129 % 16384 }).collect();
    let maps: Vec<u64> = (0..127u64).map(|i| (i * 129) << 42 | (i % 128) << 34 | (i * 65 % 16384) << 18 | (127 - i) << 10 | (i % 4) << 8 | i).collect();
    let none: &[u64] = &[];
    let scale: Vec<u64> = [0x0806, 5, 1, 7].into_iter().chain((0..12i64).map(|i| ((i - 6) * 700) as u64)).collect();
    let select: Vec<u64> = [0x0B03, 5, 300, 0].into_iter().chain([0; 10]).collect();
    row("NAK", Numbers { numbers: &[0x7E00, 5, 3], text: &[], entries: none });
    row("sample header", Numbers { numbers: &[0x0100, 5, 300, 16, 22675, 100000, 10, 99999, 127], text: &[], entries: none });
    row("sample packet, 120 bytes", Numbers { numbers: &[0x0200, 5, 9], text: &samples, entries: none });
    row("extended header", Numbers { numbers: &[0x0505, 5, 300, 16, 44100, 1 << 27, 5_000_000_000, 10, 4_999_999_999, 0, 2], text: &[], entries: none });
    row("file packet, 111 bytes", Numbers { numbers: &[0x0702, 5, 9], text: &data, entries: none });
    row("key dump, 128 tunings", Numbers { numbers: &[0x0801, 5, 7], text: b"sixteen letters.", entries: &tunings });
    row("scale dump, 2 bytes", Numbers { numbers: &scale, text: b"sixteen letters.", entries: none });
    row("open-select, 127 maps", Numbers { numbers: &select, text: b"file:///sounds/bank.dls", entries: &maps });
}
