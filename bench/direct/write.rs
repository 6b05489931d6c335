// Times the crate's writer and this one on the same messages, in one run. Each writes a message that is made before, so many times, into a
// buffer that is kept and not cleared.
use midi_msg::timed;
use midi_msg::*;
use std::hint::black_box;
use std::time::Instant;

unsafe extern "C" {
    fn pasoreum_time_nak(device: u8, number: u8, out: *mut u8, len: usize, times: usize) -> usize;
    fn pasoreum_time_header(device: u8, sample: u16, format: u8, period: u32, length: u32, start: u32, end: u32, out: *mut u8, len: usize, times: usize) -> usize;
    fn pasoreum_once_nak(device: u8, number: u8, out: *mut u8, len: usize) -> usize;
    fn pasoreum_once_header(device: u8, sample: u16, format: u8, period: u32, length: u32, start: u32, end: u32, out: *mut u8, len: usize) -> usize;
    fn pasoreum_time_packet(device: u8, count: u8, text: *const u8, text_len: usize, out: *mut u8, len: usize, times: usize) -> usize;
    fn pasoreum_time_keys(device: u8, program: u8, text: *const u8, text_len: usize, entries: *const u64, entries_len: usize, out: *mut u8, len: usize, times: usize) -> usize;
    fn pasoreum_time_file(device: u8, count: u8, text: *const u8, text_len: usize, out: *mut u8, len: usize, times: usize) -> usize;
}

const TIMES: usize = 200_000;

// The least time of eleven runs, in nanoseconds a message; a run writes it TIMES times.
fn time(mut run: impl FnMut()) -> f64 {
    let mut best = f64::MAX;
    for _ in 0..11 {
        let t = Instant::now();
        run();
        best = best.min(t.elapsed().as_nanos() as f64 / TIMES as f64);
    }
    best
}

fn row(name: &str, msg: UniversalNonRealTimeMsg, mut ours: impl FnMut(&mut [u8], usize) -> usize) {
    let m = SystemExclusiveMsg::UniversalNonRealTime { device: DeviceID::Device(5), msg };
    let mut v: Vec<u8> = Vec::with_capacity(512);
    timed::write(&m, &mut v);
    let mut out = [0u8; 512];
    let n = ours(&mut out, 1);
    assert_eq!(&v[..], &out[..n], "{name}");
    let theirs = time(|| {
        for _ in 0..TIMES {
            v.clear();
            timed::write(black_box(&m), black_box(&mut v));
        }
    });
    let mine = time(|| {
        black_box(ours(black_box(&mut out), black_box(TIMES)));
    });
    println!("{name:24} crate {theirs:8.1} ns   here {mine:8.1} ns   ratio {:.2}", mine / theirs);
}

// A message that is made of numbers and written at once, by both.
fn made(name: &str, mut theirs: impl FnMut(&mut Vec<u8>), mut ours: impl FnMut(&mut [u8]) -> usize) {
    let mut v: Vec<u8> = Vec::with_capacity(512);
    let mut out = [0u8; 512];
    theirs(&mut v);
    let n = ours(&mut out);
    assert_eq!(&v[..], &out[..n], "{name}");
    let crates = time(|| {
        for _ in 0..TIMES {
            v.clear();
            theirs(black_box(&mut v));
        }
    });
    let mine = time(|| {
        for _ in 0..TIMES {
            black_box(ours(black_box(&mut out)));
        }
    });
    println!("{name:24} crate {crates:8.1} ns   here {mine:8.1} ns   ratio {:.2}", mine / crates);
}

fn main() {
    let samples: Vec<u8> = (0..120).map(|i| (i * 7 % 128) as u8).collect();
    let data: Vec<u8> = (0..111).map(|i| (i * 37 % 256) as u8).collect();
    let name = *b"sixteen letters.";
    let tunings: Vec<Option<Tuning>> = (0..128).map(|i| if i % 9 == 0 { None } else { Some(Tuning { semitone: i as u8, fraction: (i * 129) as u16 }) }).collect();
    let entries: Vec<u64> = tunings.iter().map(|t| t.map_or(1 << 24, |t| (t.semitone as u64) << 16 | t.fraction as u64)).collect();
    row("NAK", UniversalNonRealTimeMsg::NAK(3), |o, t| unsafe { pasoreum_time_nak(5, 3, o.as_mut_ptr(), o.len(), t) });
    row(
        "sample header",
        UniversalNonRealTimeMsg::SampleDump(SampleDumpMsg::Header {
            sample_num: 300,
            format: 16,
            period: 22675,
            length: 100000,
            sustain_loop_start: 10,
            sustain_loop_end: 99999,
            loop_type: LoopType::Off,
        }),
        |o, t| unsafe { pasoreum_time_header(5, 300, 16, 22675, 100000, 10, 99999, o.as_mut_ptr(), o.len(), t) },
    );
    made(
        "NAK, made and written",
        |v| timed::write(&SystemExclusiveMsg::UniversalNonRealTime { device: DeviceID::Device(5), msg: UniversalNonRealTimeMsg::NAK(black_box(3)) }, v),
        |o| unsafe { pasoreum_once_nak(5, black_box(3), o.as_mut_ptr(), o.len()) },
    );
    made(
        "header, made and written",
        |v| {
            let msg = UniversalNonRealTimeMsg::SampleDump(SampleDumpMsg::Header {
                sample_num: black_box(300),
                format: 16,
                period: black_box(22675),
                length: black_box(100000),
                sustain_loop_start: black_box(10),
                sustain_loop_end: black_box(99999),
                loop_type: LoopType::Off,
            });
            timed::write(&SystemExclusiveMsg::UniversalNonRealTime { device: DeviceID::Device(5), msg }, v)
        },
        |o| unsafe { pasoreum_once_header(5, black_box(300), 16, black_box(22675), black_box(100000), black_box(10), black_box(99999), o.as_mut_ptr(), o.len()) },
    );
    row(
        "sample packet, 120 bytes",
        UniversalNonRealTimeMsg::SampleDump(SampleDumpMsg::Packet { running_count: 9, data: samples.clone() }),
        |o, t| unsafe { pasoreum_time_packet(5, 9, samples.as_ptr(), samples.len(), o.as_mut_ptr(), o.len(), t) },
    );
    row(
        "key dump, 128 tunings",
        UniversalNonRealTimeMsg::KeyBasedTuningDump(KeyBasedTuningDump { tuning_program_num: 7, tuning_bank_num: None, name, tunings: tunings.clone() }),
        |o, t| unsafe { pasoreum_time_keys(5, 7, name.as_ptr(), name.len(), entries.as_ptr(), entries.len(), o.as_mut_ptr(), o.len(), t) },
    );
    row(
        "file packet, 111 bytes",
        UniversalNonRealTimeMsg::FileDump(FileDumpMsg::Packet { running_count: 9, data: data.clone() }),
        |o, t| unsafe { pasoreum_time_file(5, 9, data.as_ptr(), data.len(), o.as_mut_ptr(), o.len(), t) },
    );
}
