//! capture bank|wav FILE: lists the frames of a capture of any length, a line each: offset, length, head, what it is, its main fields.
use pasoreum::*;
use std::env;
use std::fs;
use std::process::ExitCode;

/// More bytes than the longest frame has: two pieces share so many.
const OVERLAP: usize = 4_096;
const STEP: usize = LONGEST_STREAM - OVERLAP;

/// Text in quotes, its other bytes in hexadecimal digits.
fn quoted(text: &[u8]) -> String {
    let mut line = String::from("\"");
    for &byte in text {
        match byte {
            b'"' | b'\\' | 0..=0x1F | 0x7F.. => line += &format!("\\x{byte:02X}"),
            _ => line.push(byte as char),
        }
    }
    line + "\""
}

fn device(device: &DeviceID) -> String {
    match device {
        DeviceID::Device(number) => number.to_string(),
        DeviceID::AllCall => "all".to_string(),
    }
}

fn loop_number(number: &LoopNumber) -> String {
    match number {
        LoopNumber::Loop(number) => number.to_string(),
        LoopNumber::RequestAll | LoopNumber::DeleteAll => "all".to_string(),
    }
}

fn notes<T: ToString>(tuning: &[T]) -> String {
    let notes: Vec<String> = tuning.iter().map(T::to_string).collect();
    format!("notes {}", notes.join(" "))
}

fn channels(set: &ChannelBitMap) -> String {
    let lowest = set.lowest().unwrap_or(0);
    format!("{} channels from {lowest}", set.how_many())
}

/// A bank, if there is one, and a program.
fn program(bank: Option<u8>, program: u8) -> String {
    match bank {
        Some(bank) => format!("bank {bank}, program {program}"),
        None => format!("program {program}"),
    }
}

fn sample(m: &SampleDumpMsg) -> String {
    match m {
        SampleDumpMsg::Header {
            sample_num,
            format,
            period,
            length,
            sustain_loop_start,
            sustain_loop_end,
            loop_type,
        } => {
            format!(
                "sample header, sample {sample_num}, format {format}, period {period}, length {length}, \
                 loop start {sustain_loop_start}, loop end {sustain_loop_end}, loop type {}",
                *loop_type as u8
            )
        }
        SampleDumpMsg::Packet { running_count, data } => {
            format!("sample packet, packet {running_count}, {} bytes", data.len())
        }
        SampleDumpMsg::Request { sample_num } => format!("sample request, sample {sample_num}"),
        SampleDumpMsg::LoopPointTransmission { sample_num, loop_num, loop_type, start_addr, end_addr } => {
            let (number, kind) = (loop_number(loop_num), *loop_type as u8);
            format!(
                "loop points, sample {sample_num}, loop {number}, loop type {kind}, start {start_addr}, end {end_addr}"
            )
        }
        SampleDumpMsg::LoopPointsRequest { sample_num, loop_num } => {
            let number = loop_number(loop_num);
            format!("loop points request, sample {sample_num}, loop {number}")
        }
    }
}

fn extended(m: &ExtendedSampleDumpMsg) -> String {
    match m {
        ExtendedSampleDumpMsg::SampleName { sample_num, name } => {
            format!("sample name, sample {sample_num}, {}", quoted(name))
        }
        ExtendedSampleDumpMsg::SampleNameRequest { sample_num } => {
            format!("sample name request, sample {sample_num}")
        }
        ExtendedSampleDumpMsg::Header {
            sample_num,
            format,
            sample_rate_integer,
            sample_rate_fraction,
            length,
            sustain_loop_start,
            sustain_loop_end,
            loop_type,
            num_channels,
        } => {
            let thousandths = (u64::from(*sample_rate_fraction) * 1_000) >> 28;
            let kind = *loop_type as u8;
            format!(
                "extended sample header, sample {sample_num}, format {format}, rate {sample_rate_integer}.{thousandths:03}, \
                 length {length}, loop start {sustain_loop_start}, loop end {sustain_loop_end}, loop type {kind}, \
                 channels {num_channels}"
            )
        }
        ExtendedSampleDumpMsg::LoopPointTransmission { sample_num, loop_num, loop_type, start_addr, end_addr } => {
            let (number, kind) = (loop_number(loop_num), *loop_type as u8);
            format!(
                "extended loop points, sample {sample_num}, loop {number}, loop type {kind}, start {start_addr}, end {end_addr}"
            )
        }
        ExtendedSampleDumpMsg::LoopPointsRequest { sample_num, loop_num } => {
            let number = loop_number(loop_num);
            format!("extended loop points request, sample {sample_num}, loop {number}")
        }
    }
}

fn identity(reply: &IdentityReply) -> String {
    let maker = match reply.id {
        ManufacturerID(first, None) => format!("{first:02X}"),
        ManufacturerID(first, Some(second)) => format!("00 {first:02X} {second:02X}"),
    };
    let (a, b, c, d) = reply.software_revision;
    let (family, member) = (reply.family, reply.family_member);
    format!("identity reply, maker {maker}, family {family}, member {member}, revision {a}.{b}.{c}.{d}")
}

fn file(m: &FileDumpMsg) -> String {
    match m {
        FileDumpMsg::Header { sender_device, file_type, length, name } => format!(
            "file header, from device {}, type {}, length {length}, {}",
            device(sender_device),
            quoted(&file_type.letters()),
            quoted(name)
        ),
        FileDumpMsg::Packet { running_count, data } => {
            format!("file packet, packet {running_count}, {} bytes", data.len())
        }
        FileDumpMsg::Request { requester_device, file_type, name } => format!(
            "file request, for device {}, type {}, {}",
            device(requester_device),
            quoted(&file_type.letters()),
            quoted(name)
        ),
    }
}

fn wav_map(map: &WAVMap) -> String {
    let WAVMap { dst_bank, dst_prog, base, lokey, hikey, fine, volume } = map;
    format!(
        "bank {dst_bank}, program {dst_prog}, base {base}, low key {lokey}, high key {hikey}, fine {fine}, volume {volume}"
    )
}

fn select(map: &SelectMap) -> String {
    let offset = |offset: &u16, drum: &bool| format!("bank offset {offset}, drum {}", *drum as u8);
    match map {
        SelectMap::SoundFile(maps) => format!("{} maps", maps.len()),
        SelectMap::WAV(map) => wav_map(map),
        SelectMap::SoundFileBankOffset { bank_offset, src_drum } => offset(bank_offset, src_drum),
        SelectMap::WAVBankOffset { map, bank_offset, src_drum } => {
            format!("{}, {}", offset(bank_offset, src_drum), wav_map(map))
        }
    }
}

fn reference(m: &FileReferenceMsg) -> String {
    match m {
        FileReferenceMsg::Open { ctx, file_type, url } => {
            format!("sound file open, context {ctx}, type {file_type:?}, {}", quoted(url))
        }
        FileReferenceMsg::SelectContents { ctx, map } => {
            format!("sound file select, context {ctx}, {}", select(map))
        }
        FileReferenceMsg::OpenSelectContents { ctx, file_type, url, map } => {
            let (url, map) = (quoted(url), select(map));
            format!("sound file open and select, context {ctx}, type {file_type:?}, {url}, {map}")
        }
        FileReferenceMsg::Close { ctx } => format!("sound file close, context {ctx}"),
    }
}

/// A scale dump.
fn scale<T: ToString>(bank: u8, number: u8, name: &[u8; 16], tuning: &[T]) -> String {
    let program = program(Some(bank), number);
    format!("scale tuning dump, {program}, {}, {}", quoted(name), notes(tuning))
}

/// What a message is, with its main fields.
fn what(msg: &UniversalNonRealTimeMsg) -> String {
    use UniversalNonRealTimeMsg::*;
    match msg {
        SampleDump(m) => sample(m),
        ExtendedSampleDump(m) => extended(m),
        IdentityRequest => "identity request".to_string(),
        IdentityReply(reply) => identity(reply),
        FileDump(m) => file(m),
        TuningBulkDumpRequest(number, bank) => {
            format!("tuning dump request, {}", program(*bank, *number))
        }
        KeyBasedTuningDump(d) => {
            let (program, name) = (program(d.tuning_bank_num, d.tuning_program_num), quoted(&d.name));
            format!("key tuning dump, {program}, {name}, {} keys", d.tunings.len())
        }
        ScaleTuningDump1Byte(d) => scale(d.tuning_bank_num, d.tuning_program_num, &d.name, &d.tuning),
        ScaleTuningDump2Byte(d) => scale(d.tuning_bank_num, d.tuning_program_num, &d.name, &d.tuning),
        TuningNoteChange(d) => {
            let program = program(d.tuning_bank_num, d.tuning_program_num);
            format!("note change, {program}, {} keys", d.tunings.len())
        }
        ScaleTuning1Byte(t) => format!("scale tuning, {}, {}", channels(&t.channels), notes(&t.tuning)),
        ScaleTuning2Byte(t) => format!("scale tuning, {}, {}", channels(&t.channels), notes(&t.tuning)),
        GeneralMidi(pasoreum::GeneralMidi::GM1) => "General MIDI 1 on".to_string(),
        GeneralMidi(pasoreum::GeneralMidi::Off) => "General MIDI off".to_string(),
        GeneralMidi(pasoreum::GeneralMidi::GM2) => "General MIDI 2 on".to_string(),
        FileReference(m) => reference(m),
        EOF => "end of file".to_string(),
        Wait => "wait".to_string(),
        Cancel => "cancel".to_string(),
        NAK(packet) => format!("not received (NAK), packet {packet}"),
        ACK(packet) => format!("received (ACK), packet {packet}"),
    }
}

/// The head of a frame: two bytes from 05 to 0B, else one.
fn head(frame: &[u8]) -> String {
    match frame[3] {
        first @ 0x05..=0x0B => format!("{first:02X} {:02X}", frame[4]),
        first => format!("{first:02X}"),
    }
}

/// Lists the frames of a capture; how many they are.
fn list(capture: &[u8], kind: Kind) -> Result<usize, Refusal> {
    let (mut start, mut frames) = (0, 0);
    loop {
        // A full piece lists what begins before the next one, the last piece all.
        let rest = &capture[start..];
        let piece = &rest[..rest.len().min(LONGEST_STREAM)];
        let last = piece.len() < LONGEST_STREAM;
        for stretch in walk(piece, kind)? {
            if !last && stretch.offset >= STEP {
                break;
            }
            let frame = &piece[stretch.range()];
            let SystemExclusiveMsg::UniversalNonRealTime { msg, .. } = SystemExclusiveMsg::read(frame, kind)?;
            println!("{} {} {} {}", start + stretch.offset, stretch.length, head(frame), what(&msg));
            frames += 1;
        }
        if last {
            return Ok(frames);
        }
        start += STEP;
    }
}

/// Runs the program with its arguments.
fn run(arguments: &[String]) -> Result<(), String> {
    let (kind, path) = match arguments {
        [kind, path] if kind == "bank" => (Kind::Bank, path),
        [kind, path] if kind == "wav" => (Kind::WAV, path),
        _ => return Err("usage: capture bank|wav FILE".to_string()),
    };
    let capture = fs::read(path).map_err(|error| format!("capture: cannot read {path}: {error}"))?;
    let frames = list(&capture, kind).map_err(|refusal| format!("capture: refusal {}: {refusal}", refusal.number()))?;
    println!("{frames} frames");
    Ok(())
}

fn main() -> ExitCode {
    let arguments: Vec<String> = env::args().skip(1).collect();
    match run(&arguments) {
        Ok(()) => ExitCode::SUCCESS,
        Err(line) => {
            eprintln!("{line}");
            ExitCode::FAILURE
        }
    }
}
