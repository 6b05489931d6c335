//! The worked frames of the scope.
use pasoreum::*;

/// A message for a device.
fn for_device(device: u8, msg: UniversalNonRealTimeMsg) -> SystemExclusiveMsg {
    SystemExclusiveMsg::UniversalNonRealTime { device: DeviceID::Device(device), msg }
}

/// The bytes of hexadecimal digits.
fn bytes(digits: &str) -> Vec<u8> {
    digits.split_whitespace().map(|byte| u8::from_str_radix(byte, 16).unwrap()).collect()
}

/// Tests the frame of a message, written by itself and at a place.
fn written(m: &SystemExclusiveMsg, digits: &str) {
    let frame = bytes(digits);
    assert_eq!(m.to_midi().unwrap(), frame);
    let mut out = vec![0xEE; frame.len() + 5];
    assert_eq!(m.write(&mut out, 3), Ok(frame.len()));
    assert_eq!(out[3..frame.len() + 3], frame);
    assert_eq!(out[..3], [0xEE; 3]);
    assert_eq!(out[frame.len() + 3..], [0xEE; 2]);
}

#[test]
fn frame_1_identity_request() {
    let request = SystemExclusiveMsg::UniversalNonRealTime {
        device: DeviceID::AllCall,
        msg: UniversalNonRealTimeMsg::IdentityRequest,
    };
    written(&request, "F0 7E 7F 06 01 F7");
}

#[test]
fn frame_2_nak() {
    let nak = for_device(200, UniversalNonRealTimeMsg::NAK(200));
    written(&nak, "F0 7E 7F 7E 7F F7");
}

#[test]
fn frame_3_sample_request() {
    let request = SampleDumpMsg::Request { sample_num: 300 };
    let msg = UniversalNonRealTimeMsg::SampleDump(request);
    written(&for_device(1, msg), "F0 7E 01 03 2C 02 F7");
}

#[test]
fn frame_4_sample_header() {
    let msg = UniversalNonRealTimeMsg::SampleDump(SampleDumpMsg::Header {
        sample_num: 1,
        format: 40,
        period: 22_675,
        length: 1_000,
        sustain_loop_start: 0,
        sustain_loop_end: 2_097_152,
        loop_type: LoopType::Off,
    });
    written(&for_device(0, msg), "F0 7E 00 01 01 00 1C 13 31 01 68 07 00 00 00 00 7F 7F 7F 7F F7");
}

#[test]
fn frame_5_file_packet() {
    let packet = |data| for_device(0, UniversalNonRealTimeMsg::FileDump(FileDumpMsg::packet(0, data)));
    written(&packet(vec![0xFF]), "F0 7E 00 07 02 00 01 40 7F 45 F7");
    assert_eq!(packet(vec![0; 111]).to_midi().unwrap()[6], 126);
    assert_eq!(packet(vec![0; 112]).to_midi(), Err(Refusal::Long));
}

#[test]
fn frame_6_close() {
    let close = FileReferenceMsg::Close { ctx: 16_384 };
    let msg = UniversalNonRealTimeMsg::FileReference(close);
    written(&for_device(0, msg), "F0 7E 00 0B 04 7F 7F 00 00 F7");
}

/// A select for device 0.
fn select(ctx: u16, map: SelectMap) -> SystemExclusiveMsg {
    let select = FileReferenceMsg::SelectContents { ctx, map };
    for_device(0, UniversalNonRealTimeMsg::FileReference(select))
}

#[test]
fn frame_7_select_without_maps() {
    let select = select(1, SelectMap::SoundFile(vec![]));
    written(&select, "F0 7E 00 0B 02 01 00 01 00 00 F7");
}

#[test]
fn frame_8_select_by_kind() {
    let digits = "F0 7E 00 0B 02 00 00 09 00 01 00 00 00 00 00 00 00 7F F7";
    let bank = select(0, SelectMap::SoundFile(vec![SoundFileMap::default()]));
    let wav = select(
        0,
        SelectMap::WAV(WAVMap { dst_bank: 1, dst_prog: 0, base: 0, lokey: 0, hikey: 0, fine: -8_192, volume: 127 }),
    );
    written(&bank, digits);
    written(&wav, digits);
    let frame = bytes(digits);
    assert_eq!(SystemExclusiveMsg::read(&frame, Kind::Bank), Ok(bank));
    assert_eq!(SystemExclusiveMsg::read(&frame, Kind::WAV), Ok(wav));
}

#[test]
fn frame_9_stream() {
    let stream = bytes("90 3C F0 7E 00 F0 7E 00 7B 00 F7 F7");
    let eof = Stretch { offset: 5, length: 6 };
    for kind in [Kind::Bank, Kind::WAV] {
        assert_eq!(walk(&stream, kind), Ok(vec![eof]));
        assert_eq!(walk(&[], kind), Ok(vec![]));
        let read = SystemExclusiveMsg::read(&stream[eof.range()], kind);
        assert_eq!(read, Ok(for_device(0, UniversalNonRealTimeMsg::EOF)));
    }
    let mut index = [9; 5];
    assert_eq!(walk_into(&stream, Kind::Bank, &mut index), Ok(1));
    assert_eq!(index, [5, 6, 9, 9, 9]);
}

#[test]
fn frame_10_rate() {
    let loop_type = ExtendedLoopType::OneShot;
    let header = ExtendedSampleDumpMsg::header(0, 16, 44_100.5, 0, 0, 0, loop_type, 1).unwrap();
    assert_eq!(header.sample_rate(), Some(44_100.5));
    let msg = UniversalNonRealTimeMsg::ExtendedSampleDump(header);
    let frame = for_device(0, msg).to_midi().unwrap();
    assert_eq!(frame[8..16], bytes("44 58 02 00 00 00 00 40"));
    assert_eq!(split_rate(44_100.5), Ok((44_100, 1 << 27)));
    assert_eq!(split_rate(-1.0), Ok((0, 0)));
    assert_eq!(join_rate(44_100, 1 << 27), 44_100.5);
}

#[test]
fn frame_11_checksums() {
    let packet = SampleDumpMsg::Packet { running_count: 0, data: vec![] };
    let msg = UniversalNonRealTimeMsg::SampleDump(packet);
    let frame = for_device(0, msg).to_midi().unwrap();
    assert_eq!(frame[frame.len() - 2..], [0x7C, 0xF7]);
    let msg = UniversalNonRealTimeMsg::ScaleTuningDump1Byte(ScaleTuningDump1Byte {
        tuning_program_num: 0,
        tuning_bank_num: 0,
        name: [0x20; 16],
        tuning: [0; 12],
    });
    let frame = for_device(0, msg).to_midi().unwrap();
    assert_eq!(frame[frame.len() - 2..], [0x73, 0xF7]);
}

#[test]
fn cents_and_channels() {
    let cents = [f32::NAN, -1.0, 0.0, 50.0, 100.0, 101.0].map(cents_to_u14);
    assert_eq!(cents, [0, 0, 0, 8_192, 16_383, 16_383]);
    let some = ChannelBitMap { channel_3: true, channel_16: true, ..ChannelBitMap::none() };
    assert_eq!(some.to_set(), 0x8004);
    assert_eq!(ChannelBitMap::from_set(0x8004), some);
    assert_eq!((some.how_many(), some.lowest()), (2, Some(3)));
    let (all, none) = (ChannelBitMap::all(), ChannelBitMap::none());
    assert_eq!((all.how_many(), all.lowest()), (16, Some(1)));
    assert_eq!((none.how_many(), none.lowest()), (0, None));
}
