//! Every refusal that the safe types can meet.
use pasoreum::*;

/// A message for device 0.
fn message(msg: UniversalNonRealTimeMsg) -> SystemExclusiveMsg {
    let device = DeviceID::Device(0);
    SystemExclusiveMsg::UniversalNonRealTime { device, msg }
}

/// The refusal of a message, which alters nothing of the output.
fn refused(msg: UniversalNonRealTimeMsg) -> u32 {
    let mut out = [0xEE; LONGEST_FRAME];
    let refusal = message(msg).write(&mut out, 0).unwrap_err();
    assert_eq!(out, [0xEE; LONGEST_FRAME]);
    refusal.number()
}

fn sample_name(name: &[u8]) -> UniversalNonRealTimeMsg {
    UniversalNonRealTimeMsg::ExtendedSampleDump(ExtendedSampleDumpMsg::SampleName {
        sample_num: 0,
        name: name.to_vec(),
    })
}

fn open(url: &[u8]) -> FileReferenceMsg {
    FileReferenceMsg::Open { ctx: 0, file_type: FileReferenceType::DLS, url: url.to_vec() }
}

fn file_header(length: u32, name: Vec<u8>) -> UniversalNonRealTimeMsg {
    UniversalNonRealTimeMsg::FileDump(FileDumpMsg::Header {
        sender_device: DeviceID::AllCall,
        file_type: FileType::MIDI,
        length,
        name,
    })
}

#[test]
fn contents() {
    assert_eq!(refused(sample_name(&[0x80])), 1);
    let mut cut = [b'a'; 128];
    cut[127] = 0x80;
    assert_eq!(refused(sample_name(&cut)), 1);
    let url = UniversalNonRealTimeMsg::FileReference(open(b"a\0"));
    assert_eq!(refused(url), 1);
    assert_eq!(refused(file_header(0, vec![0x20; 1_025])), 2);
    assert_eq!(refused(file_header(1 << 28, vec![0x20; 1_024])), 3);
    let changes = TuningNoteChange { tuning_program_num: 0, tuning_bank_num: None, tunings: vec![(0, None); 128] };
    let changes = UniversalNonRealTimeMsg::TuningNoteChange(changes);
    assert_eq!(refused(changes), 2);
    let reply = IdentityReply { id: 0.into(), family: 0, family_member: 0, software_revision: (0, 0, 0, 0) };
    assert_eq!(refused(UniversalNonRealTimeMsg::IdentityReply(reply)), 3);
    let other_kind = FileReferenceMsg::OpenSelectContents {
        ctx: 0,
        file_type: FileReferenceType::DLS,
        url: vec![],
        map: SelectMap::WAV(WAVMap::default()),
    };
    let other_kind = UniversalNonRealTimeMsg::FileReference(other_kind);
    assert_eq!(refused(other_kind), 4);
    for rate in [f64::NAN, f64::INFINITY, 268_435_456.0] {
        assert_eq!(split_rate(rate), Err(Refusal::Value));
        let loop_type = ExtendedLoopType::Forward;
        let header = ExtendedSampleDumpMsg::header(0, 16, rate, 0, 0, 0, loop_type, 1);
        assert_eq!(header, Err(Refusal::Value));
    }
}

#[test]
fn output() {
    let eof = message(UniversalNonRealTimeMsg::EOF);
    let mut out = [0xEE; 8];
    for place in [3, 8, 9, usize::MAX] {
        assert_eq!(eof.write(&mut out, place), Err(Refusal::Space));
    }
    assert_eq!(out, [0xEE; 8]);
    assert_eq!(eof.write(&mut [], 0), Err(Refusal::Space));
    assert_eq!(eof.write(&mut out, 2), Ok(6));
}

#[test]
fn frame_read() {
    let read = |frame: &[u8]| SystemExclusiveMsg::read(frame, Kind::Bank).unwrap_err();
    assert_eq!(read(&[]), Refusal::Shape);
    assert_eq!(read(&[0xF0, 0x7E, 0, 0x7B, 0x80, 0xF7]), Refusal::Shape);
    assert_eq!(read(&[0xF0, 0x7F, 0, 0x7B, 0, 0xF7]), Refusal::Head);
    assert_eq!(read(&[0xF0, 0x7E, 0, 0x04, 0, 0xF7]), Refusal::Head);
    assert_eq!(read(&[0xF0, 0x7E, 0, 0x7B, 1, 0xF7]), Refusal::Field);
    let packet = FileDumpMsg::packet(0, vec![0xFF]);
    let packet = message(UniversalNonRealTimeMsg::FileDump(packet));
    let mut frame = packet.to_midi().unwrap();
    let sum = frame.len() - 2;
    frame[sum] ^= 1;
    assert_eq!(read(&frame), Refusal::Sum);
}

#[test]
fn stream() {
    let mut stream = vec![0; 65_536];
    assert_eq!(walk(&stream, Kind::Bank), Err(Refusal::Stream));
    let frame = message(UniversalNonRealTimeMsg::EOF).to_midi().unwrap();
    stream[..6].copy_from_slice(&frame);
    stream[65_529..65_535].copy_from_slice(&frame);
    let mut index = [9; 3];
    let refused = walk_into(&stream[..65_535], Kind::WAV, &mut index).unwrap_err();
    assert_eq!((refused, refused.number()), (Refusal::Index(2), 12));
    assert_eq!(index, [9; 3]);
    assert_eq!(walk(&stream[..65_535], Kind::WAV).unwrap().len(), 2);
    let full = frame.repeat(10_922);
    assert_eq!(walk(&full, Kind::Bank).unwrap().len(), 10_922);
}

#[test]
fn identity() {
    let read = |m: &[u8]| UniversalNonRealTimeMsg::from_midi(m).unwrap_err().number();
    assert_eq!(read(&[6]), 13);
    assert_eq!(read(&[6, 2]), 13);
    assert_eq!(read(&[6, 2, 0x80]), 14);
    assert_eq!(read(&[6, 1]), 15);
}

#[test]
fn refusals_are_errors() {
    let refusal: Box<dyn std::error::Error> = Box::new(Refusal::Index(3));
    assert_eq!(refusal.to_string(), "an index too short for 3 frames");
}
