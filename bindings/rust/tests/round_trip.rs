//! A settled message of each head, written, held against the bytes of its layout, and read again.
use pasoreum::UniversalNonRealTimeMsg::*;
use pasoreum::*;

/// The first bytes of each message's frame, up to 40, a line each.
const FRAMES: &str = include_str!("frames.txt");
const NAME: [u8; 16] = *b"quarter comma   ";
const SCALE_1: [i8; 12] = [-64, -1, 0, 1, 63, 5, -5, 7, -7, 9, -9, 11];
const SCALE_2: [i16; 12] = [-8_192, -1, 0, 1, 8_191, 500, -500, 7, -7, 9, -9, 11];

fn tuning(semitone: u8, fraction: u16) -> Option<Tuning> {
    Some(Tuning { semitone, fraction })
}

fn keys(tuning_bank_num: Option<u8>) -> UniversalNonRealTimeMsg {
    let mut tunings: Vec<_> = (0..128).map(|key| tuning(key, 100)).collect();
    tunings[60] = None;
    tunings[61] = tuning(127, 16_382);
    KeyBasedTuningDump(pasoreum::KeyBasedTuningDump { tuning_program_num: 5, tuning_bank_num, name: NAME, tunings })
}

fn channels() -> ChannelBitMap {
    ChannelBitMap { channel_1: true, channel_8: true, channel_15: true, ..ChannelBitMap::none() }
}

fn reply(id: impl Into<ManufacturerID>) -> UniversalNonRealTimeMsg {
    IdentityReply(pasoreum::IdentityReply {
        id: id.into(),
        family: 300,
        family_member: 16_383,
        software_revision: (1, 0, 2, 127),
    })
}

fn bank_maps() -> SelectMap {
    let map = SoundFileMap {
        dst_bank: 16_383,
        dst_prog: 1,
        src_bank: 300,
        src_prog: 127,
        src_drum: true,
        dst_drum: false,
        volume: 100,
    };
    SelectMap::SoundFile(vec![map, SoundFileMap::default()])
}

fn wav_map() -> WAVMap {
    WAVMap { dst_bank: 300, dst_prog: 1, fine: -3, ..WAVMap::default() }
}

fn wav_offset() -> SelectMap {
    SelectMap::WAVBankOffset { map: wav_map(), bank_offset: 16_383, src_drum: true }
}

fn select(map: SelectMap) -> UniversalNonRealTimeMsg {
    FileReference(FileReferenceMsg::SelectContents { ctx: 7, map })
}

fn open_select(file_type: FileReferenceType, map: SelectMap) -> UniversalNonRealTimeMsg {
    FileReference(FileReferenceMsg::OpenSelectContents { ctx: 16_383, file_type, url: b"file://piano".to_vec(), map })
}

/// Messages of sample dumps, with their heads.
fn samples() -> Vec<(u16, UniversalNonRealTimeMsg)> {
    let (sample_num, all) = (16_383, LoopNumber::RequestAll);
    let sample = |code, m| (code, SampleDump(m));
    let extended = |code, m| (code, ExtendedSampleDump(m));
    vec![
        sample(
            0x0100,
            SampleDumpMsg::Header {
                sample_num,
                format: 28,
                period: 22_675,
                length: 2_097_151,
                sustain_loop_start: 8,
                sustain_loop_end: 39,
                loop_type: LoopType::BiDirectional,
            },
        ),
        sample(0x0200, SampleDumpMsg::packet(129, [0x55; 120])),
        sample(0x0300, SampleDumpMsg::Request { sample_num }),
        sample(
            0x0501,
            SampleDumpMsg::LoopPointTransmission {
                sample_num,
                loop_num: LoopNumber::DeleteAll,
                loop_type: LoopType::Off,
                start_addr: 1,
                end_addr: 2_097_151,
            },
        ),
        sample(0x0502, SampleDumpMsg::LoopPointsRequest { sample_num, loop_num: all }),
        extended(0x0503, ExtendedSampleDumpMsg::SampleName { sample_num, name: b"Kick".to_vec() }),
        extended(0x0504, ExtendedSampleDumpMsg::SampleNameRequest { sample_num }),
        extended(
            0x0505,
            ExtendedSampleDumpMsg::Header {
                sample_num,
                format: 8,
                sample_rate_integer: (1 << 28) - 1,
                sample_rate_fraction: 1,
                length: (1 << 35) - 1,
                sustain_loop_start: 1 << 34,
                sustain_loop_end: 3,
                loop_type: ExtendedLoopType::BackwardRelease,
                num_channels: 127,
            },
        ),
        extended(
            0x0506,
            ExtendedSampleDumpMsg::LoopPointTransmission {
                sample_num,
                loop_num: LoopNumber::Loop(16_382),
                loop_type: ExtendedLoopType::BackwardOneShot,
                start_addr: 0,
                end_addr: (1 << 35) - 1,
            },
        ),
        extended(0x0507, ExtendedSampleDumpMsg::LoopPointsRequest { sample_num, loop_num: all }),
    ]
}

/// Messages of identity, file dumps and tunings, with their heads.
fn files_and_tunings() -> Vec<(u16, UniversalNonRealTimeMsg)> {
    let header = FileDumpMsg::Header {
        sender_device: DeviceID::AllCall,
        file_type: FileType::BIN,
        length: (1 << 28) - 1,
        name: b"SONG".to_vec(),
    };
    let request = FileDumpMsg::Request {
        requester_device: DeviceID::Device(126),
        file_type: FileType::Custom(*b"WAV "),
        name: vec![],
    };
    vec![
        (0x0601, IdentityRequest),
        (0x0602, reply(0x41)),
        (0x0602, reply((0x20, 0x29))),
        (0x0701, FileDump(header)),
        (0x0702, FileDump(FileDumpMsg::packet(0, (145..=255).collect()))),
        (0x0703, FileDump(request)),
        (0x0800, TuningBulkDumpRequest(3, None)),
        (0x0801, keys(None)),
        (0x0803, TuningBulkDumpRequest(3, Some(4))),
        (0x0804, keys(Some(6))),
        (
            0x0805,
            ScaleTuningDump1Byte(pasoreum::ScaleTuningDump1Byte {
                tuning_program_num: 5,
                tuning_bank_num: 6,
                name: NAME,
                tuning: SCALE_1,
            }),
        ),
        (
            0x0806,
            ScaleTuningDump2Byte(pasoreum::ScaleTuningDump2Byte {
                tuning_program_num: 5,
                tuning_bank_num: 6,
                name: NAME,
                tuning: SCALE_2,
            }),
        ),
        (
            0x0807,
            TuningNoteChange(pasoreum::TuningNoteChange {
                tuning_program_num: 5,
                tuning_bank_num: Some(6),
                tunings: vec![(60, tuning(60, 200)), (127, None)],
            }),
        ),
        (0x0808, ScaleTuning1Byte(pasoreum::ScaleTuning1Byte { channels: channels(), tuning: SCALE_1 })),
        (0x0809, ScaleTuning2Byte(pasoreum::ScaleTuning2Byte { channels: channels(), tuning: SCALE_2 })),
    ]
}

/// All other messages, with their heads.
fn others() -> Vec<(u16, UniversalNonRealTimeMsg)> {
    let (file_type, url) = (FileReferenceType::SF2, b"file://piano.sf2".to_vec());
    let open = FileReferenceMsg::Open { ctx: 1, file_type, url };
    let offset = SelectMap::SoundFileBankOffset { bank_offset: 300, src_drum: true };
    vec![
        (0x0901, GeneralMidi(pasoreum::GeneralMidi::GM1)),
        (0x0902, GeneralMidi(pasoreum::GeneralMidi::Off)),
        (0x0903, GeneralMidi(pasoreum::GeneralMidi::GM2)),
        (0x0B01, FileReference(open)),
        (0x0B02, select(bank_maps())),
        (0x0B02, select(offset.clone())),
        (0x0B02, select(SelectMap::WAV(wav_map()))),
        (0x0B02, select(wav_offset())),
        (0x0B03, open_select(FileReferenceType::DLS, bank_maps())),
        (0x0B03, open_select(FileReferenceType::SF2, offset)),
        (0x0B03, open_select(FileReferenceType::WAV, wav_offset())),
        (0x0B04, FileReference(FileReferenceMsg::Close { ctx: 16_383 })),
        (0x7B00, EOF),
        (0x7C00, Wait),
        (0x7D00, Cancel),
        (0x7E00, NAK(127)),
        (0x7F00, ACK(0)),
    ]
}

#[test]
fn every_head() {
    let all = [samples(), files_and_tunings(), others()].concat();
    let mut heads: Vec<u16> = all.iter().map(|(code, _)| *code).collect();
    heads.dedup();
    assert_eq!(heads.len(), 36);
    assert_eq!(FRAMES.lines().count(), all.len());
    let devices = [DeviceID::Device(0), DeviceID::Device(126), DeviceID::AllCall];
    for (i, ((code, msg), line)) in all.into_iter().zip(FRAMES.lines()).enumerate() {
        let kind = match &msg {
            FileReference(FileReferenceMsg::SelectContents {
                map: SelectMap::WAV(_) | SelectMap::WAVBankOffset { .. },
                ..
            }) => Kind::WAV,
            _ => Kind::Bank,
        };
        let device = devices[i % 3];
        let m = SystemExclusiveMsg::UniversalNonRealTime { device, msg };
        let frame = m.to_midi().unwrap();
        let [first, second] = code.to_be_bytes();
        assert_eq!(frame[3], first);
        assert!(second == 0 || frame[4] == second);
        let digits: Vec<String> = frame.iter().take(40).map(|byte| format!("{byte:02X}")).collect();
        assert_eq!(digits.join(" "), line);
        assert_eq!(SystemExclusiveMsg::read(&frame, kind), Ok(m));
        let whole = Stretch { offset: 0, length: frame.len() };
        assert_eq!(walk(&frame, kind), Ok(vec![whole]));
    }
}

#[test]
fn identity_from_its_head() {
    for msg in [reply(0x41), reply((0x20, 0x29))] {
        let device = DeviceID::AllCall;
        let m = SystemExclusiveMsg::UniversalNonRealTime { device, msg: msg.clone() };
        let frame = m.to_midi().unwrap();
        let read = UniversalNonRealTimeMsg::from_midi(&frame[3..]);
        assert_eq!(read.map(IdentityReply), Ok(msg));
    }
}

#[test]
fn the_longest_frame() {
    let m = SystemExclusiveMsg::UniversalNonRealTime {
        device: DeviceID::AllCall,
        msg: FileReference(FileReferenceMsg::OpenSelectContents {
            ctx: 0,
            file_type: FileReferenceType::DLS,
            url: vec![b'a'; 261],
            map: SelectMap::SoundFile(vec![SoundFileMap::default(); 128]),
        }),
    };
    assert_eq!(m.to_midi().unwrap().len(), LONGEST_FRAME);
}
