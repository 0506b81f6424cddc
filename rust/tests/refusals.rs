//! Every refusal of the safe functions, in its order, and that a refusal leaves every lent byte.

use silberlaus::{
    Cause, Frame, Pitch, Refusal, Shape, Tns, frame_size, line_count, protect, read_frame, record, unprotect,
    unprotect_each, unprotected, write_frame,
};

const MODE: u32 = 3;
const FRAME: [u8; 53] = [0x21; 53];
const WORDS: usize = 11;

fn clean_slot(frame: &[u8; 53]) -> [u8; 80] {
    let mut slot = [0; 80];
    protect(MODE, 2, frame, &mut slot).unwrap();
    slot
}

/// The slot of `FRAME` with word 4 taken from the slot of another frame: valid words that no frame makes.
fn foreign_slot() -> [u8; 80] {
    let (mut slot, other) = (clean_slot(&FRAME), clean_slot(&[0xd7; 53]));
    for place in (0..160).filter(|place| (159 - place) % WORDS == 4) {
        let half = if place % 2 == 0 { 0x0f } else { 0xf0 };
        slot[place / 2] = slot[place / 2] & !half | other[place / 2] & half;
    }
    slot
}

fn refused_protect(mode: u32, request: u32, frame: &[u8], slot_len: usize) -> Refusal {
    let mut slot = vec![0xa5; slot_len];
    let refusal = protect(mode, request, frame, &mut slot).unwrap_err();
    assert!(slot.iter().all(|&byte| byte == 0xa5));
    refusal
}

fn refused_unprotect(mode: u32, slot: &[u8], frame_len: usize) -> Refusal {
    let mut frame = vec![0xa5; frame_len];
    let refusal = unprotect(mode, slot, &mut frame).unwrap_err();
    assert!(frame.iter().all(|&byte| byte == 0xa5));
    refusal
}

#[test]
fn frame_sizes() {
    assert_eq!(frame_size(80, MODE), Some(53));
    for (size, mode) in [(39, 3), (401, 3), (80, 1), (80, 5), (80, 258), (usize::MAX, 3)] {
        assert_eq!(frame_size(size, mode), None);
    }
}

#[test]
fn protect_refuses_1_then_2() {
    for (mode, request, slot_len) in [
        (1, 0, 80),
        (5, 0, 80),
        (258, 0, 80),
        (MODE, 4, 80),
        (MODE, 256, 80),
        (MODE, 0, 39),
        (MODE, 0, 401),
        (MODE, 0, 0),
    ] {
        for frame_len in [0, 52, 53, 54] {
            assert_eq!(refused_protect(mode, request, &vec![0; frame_len], slot_len), Refusal::BadSetting);
        }
    }
    for frame_len in [0, 52, 54, 53 + 256] {
        assert_eq!(refused_protect(MODE, 0, &vec![0; frame_len], 80), Refusal::BadLength);
    }
}

#[test]
fn unprotect_refuses_1_then_2_then_3_then_4() {
    let mut hopeless = foreign_slot();
    hopeless[..20].fill(0x77);
    for slot in [clean_slot(&FRAME), hopeless] {
        for mode in [1, 5, 259] {
            assert_eq!(refused_unprotect(mode, &slot, 52), Refusal::BadSetting);
        }
        assert_eq!(refused_unprotect(MODE, &slot[..39], 53), Refusal::BadSetting);
        assert_eq!(refused_unprotect(MODE, &slot, 52), Refusal::BadLength);
        assert_eq!(refused_unprotect(MODE, &slot, 54), Refusal::BadLength);
        assert_eq!(refused_unprotect(MODE, &slot[..79], 53), Refusal::BadLength);
    }
    assert_eq!(refused_unprotect(MODE, &hopeless, 53), Refusal::BeyondRepair);
    assert_eq!(refused_unprotect(MODE, &foreign_slot(), 53), Refusal::Foreign);
}

/// Unprotects the first bytes of four clean slots into slices of these lengths; where that is refused all have to stay.
fn each(size: usize, mode: u32, [slots, n, r, o, b, f]: [usize; 6]) -> Result<(), Refusal> {
    let lent = clean_slot(&FRAME).repeat(4);
    let (mut numbers, mut requests, mut frames) = (vec![0xa5; n], vec![0xa5; r], vec![0xa5; f]);
    let (mut semi_octets, mut bits) = (vec![0xa5a5; o], vec![0xa5a5; b]);
    let answer = unprotect_each(
        size,
        mode,
        &lent[..slots],
        &mut numbers,
        &mut requests,
        &mut semi_octets,
        &mut bits,
        &mut frames,
    );
    if answer.is_err() {
        assert!([numbers, requests, frames].concat().iter().all(|&byte| byte == 0xa5));
        assert!([semi_octets, bits].concat().iter().all(|&entry| entry == 0xa5a5));
    }
    answer
}

#[test]
fn unprotect_each_refuses_1_then_2() {
    let no_settings =
        [(0, MODE), (39, MODE), (401, MODE), (usize::MAX, MODE), (80, 0), (80, 1), (80, 5), (80, 259), (80, u32::MAX)];
    for n in [0, 1, 3] {
        let (right, of_slot) = ([n * 80, n, n, n, n, n * 53], [80, 1, 1, 1, 1, 53]);
        assert_eq!(each(80, MODE, right), Ok(()));
        let mut tried = vec![right];
        for part in 0..6 {
            let (long, slot) = (right[part], of_slot[part]);
            for length in [long.saturating_sub(1), long + 1, long.saturating_sub(slot), long + slot, 0] {
                let mut lengths = right;
                lengths[part] = length;
                if lengths != right {
                    assert_eq!(each(80, MODE, lengths), Err(Refusal::BadLength), "{lengths:?}");
                    tried.push(lengths);
                }
            }
        }
        for lengths in tried {
            for (size, mode) in no_settings {
                assert_eq!(each(size, mode, lengths), Err(Refusal::BadSetting), "{size} {mode} {lengths:?}");
            }
        }
    }
}

#[test]
fn a_refused_slot_ends_no_batch() {
    let mut hopeless = clean_slot(&FRAME);
    hopeless[..20].fill(0x77);
    let slots = [hopeless, clean_slot(&FRAME), foreign_slot(), clean_slot(&FRAME), hopeless].concat();
    let (mut numbers, mut requests, mut semi_octets, mut bits) = ([9; 5], [9; 5], [9; 5], [9; 5]);
    let mut frames = [0xa5; 5 * 53];
    unprotect_each(80, MODE, &slots, &mut numbers, &mut requests, &mut semi_octets, &mut bits, &mut frames).unwrap();
    assert_eq!((numbers, requests), ([3, 0, 4, 0, 3], [0, 2, 0, 2, 0]));
    assert_eq!((semi_octets, bits), ([0; 5], [0; 5]));
    assert_eq!(frames.to_vec(), [[0xa5; 53], FRAME, [0xa5; 53], FRAME, [0xa5; 53]].concat());
}

#[test]
fn unprotected_takes_any_number() {
    for number in 0..=255 {
        let answer = unprotected(number, 3, 2, 5).map(|got| (got.request, got.semi_octets, got.bits));
        let want = match number {
            0 => Ok((3, 2, 5)),
            3 => Err(Refusal::BeyondRepair),
            4 => Err(Refusal::Foreign),
            _ => Err(Refusal::BadSetting),
        };
        assert_eq!(answer, want);
    }
}

/// Forms that are none; some are 1 or 2 once they are narrowed.
const NO_FORMS: [u32; 7] = [0, 3, 257, 258, 65537, 65538, u32::MAX];

/// A record of two entries in the first bytes of 200, in either form.
fn two_entries(form: u32) -> ([u8; 200], usize) {
    let mut buffer = [0x77; 200];
    let mut used = record::new(2, &mut buffer).unwrap();
    used = record::add(&mut buffer, used, &[1; 20], 1, 162, Some(648)).unwrap();
    used = record::add(&mut buffer, used, &[2; 21], 3, 0, None).unwrap();
    if form == 2 {
        return (buffer, used);
    }
    let mut moved = [0x77; 200];
    let used = record::to_form_1(&buffer[..used], &mut moved).unwrap();
    (moved, used)
}

#[test]
fn new_refuses_1_then_6() {
    for capacity in 0..8 {
        for form in NO_FORMS {
            let mut buffer = vec![0xa5; capacity];
            assert_eq!(record::new(form, &mut buffer), Err(Refusal::BadSetting));
            assert!(buffer.iter().all(|&byte| byte == 0xa5));
        }
    }
    assert_eq!(record::new(1, &mut []), Err(Refusal::NoRoom));
    assert_eq!(record::new(1, &mut [0; 3]), Err(Refusal::NoRoom));
    assert_eq!(record::new(2, &mut [0; 4]), Err(Refusal::NoRoom));
}

#[test]
fn readers_refuse_1_then_7_then_1() {
    for form in [1, 2] {
        let (buffer, used) = two_entries(form);
        let bits = if form == 1 { None } else { Some(648) };
        assert_eq!(record::entries(form, &buffer[..used]), Ok(2));
        assert_eq!(record::frame(form, &buffer[..used], 1), Ok(&[2; 21][..]));
        assert_eq!([0, 1].map(|place| record::entry(form, &buffer[..used], place).unwrap().bits), [bits, None]);
        for place in [2, 3, usize::MAX] {
            assert_eq!(record::entry(form, &buffer[..used], place), Err(Refusal::BadSetting));
            assert_eq!(record::frame(form, &buffer[..used], place), Err(Refusal::BadSetting));
        }
        for cut in 0..used {
            assert_eq!(record::entries(form, &buffer[..cut]), Err(Refusal::NotARecord));
            assert_eq!(record::entry(form, &buffer[..cut], 5), Err(Refusal::NotARecord));
            assert_eq!(record::frame(form, &buffer[..cut], 0), Err(Refusal::NotARecord));
        }
        assert_eq!(record::entries(3 - form, &buffer[..used]), Err(Refusal::NotARecord));
        for no_form in NO_FORMS {
            for record in [&buffer[..used], &buffer[..used - 1], &[]] {
                assert_eq!(record::entries(no_form, record), Err(Refusal::BadSetting));
                assert_eq!(record::entry(no_form, record, 5), Err(Refusal::BadSetting));
                assert_eq!(record::frame(no_form, record, 0), Err(Refusal::BadSetting));
            }
        }
    }
}

type Settings = (usize, u32, u32, Option<u32>);

fn refused_add(form: u32, capacity: usize, used: usize, (frame_len, request, count, bits): Settings) -> Refusal {
    let (mut buffer, _) = two_entries(form);
    let before = buffer;
    let refusal = record::add(&mut buffer[..capacity], used, &vec![9; frame_len], request, count, bits).unwrap_err();
    assert_eq!(buffer, before);
    refusal
}

#[test]
fn add_refuses_1_then_7_then_6() {
    let (_, used) = two_entries(2);
    const RIGHT: Settings = (20, 0, 0, Some(0));
    for (capacity, used) in [(200, used), (200, used - 1), (used, used)] {
        for settings in [
            (19, 0, 0, None),
            (401, 0, 0, None),
            (20, 4, 0, None),
            (20, 256, 0, None),
            (20, 0, 163, None),
            (20, 0, 256, None),
            (20, 0, 0, Some(1)),
            (20, 0, 5, Some(4)),
            (20, 0, 5, Some(21)),
            (20, 0, 162, Some(649)),
            (20, 0, 162, Some(65534)),
            (20, 0, 5, Some(65535)),
            (20, 0, 5, Some(65536 + 5)),
            (20, 0, 5, Some(65536 + 65535)),
            (20, 0, 5, Some(u32::MAX)),
        ] {
            assert_eq!(refused_add(2, capacity, used, settings), Refusal::BadSetting, "{settings:?}");
        }
    }
    assert_eq!(refused_add(2, 60, 61, RIGHT), Refusal::BadSetting);
    assert_eq!(refused_add(2, 60, usize::MAX, RIGHT), Refusal::BadSetting);
    assert_eq!(refused_add(2, 200, used - 1, RIGHT), Refusal::NotARecord);
    assert_eq!(refused_add(2, used - 1, used - 1, RIGHT), Refusal::NotARecord);
    assert_eq!(refused_add(2, 0, 0, RIGHT), Refusal::NotARecord);
    assert_eq!(refused_add(2, used + 25, used, RIGHT), Refusal::NoRoom);
    let (_, used) = two_entries(1);
    assert_eq!(refused_add(1, 200, used, RIGHT), Refusal::NotARecord);
    assert_eq!(refused_add(1, used, used, RIGHT), Refusal::NotARecord);
}

type Move = fn(&[u8], &mut [u8]) -> Result<usize, Refusal>;

fn refused_move(to_form: Move, record: &[u8], capacity: usize) -> Refusal {
    let mut out = vec![0xa5; capacity];
    let refusal = to_form(record, &mut out).unwrap_err();
    assert!(out.iter().all(|&byte| byte == 0xa5));
    refusal
}

#[test]
fn moves_refuse_7_then_6() {
    let moves: [(u32, Move, Move); 2] =
        [(1, record::to_form_2, record::to_form_1), (2, record::to_form_1, record::to_form_2)];
    for (form, there, back) in moves {
        let (buffer, used) = two_entries(form);
        let length = if form == 1 { used + 5 } else { used - 5 };
        let mut out = vec![0xa5; length + 3];
        assert_eq!(there(&buffer[..used], &mut out), Ok(length));
        assert_eq!(out[length..], [0xa5; 3]);
        assert_eq!(refused_move(there, &buffer[..used], length - 1), Refusal::NoRoom);
        assert_eq!(refused_move(there, &buffer[..used], 0), Refusal::NoRoom);
        assert_eq!(refused_move(back, &buffer[..used], 200), Refusal::NotARecord);
        for cut in 0..used {
            assert_eq!(refused_move(there, &buffer[..cut], 0), Refusal::NotARecord);
        }
    }
}

/// A form 1 record of 161 frames of 400 bytes and one of `last`, which grows by 325 bytes when it is moved.
fn growing_record(last: u8) -> Vec<u8> {
    let mut record = [&[0x11; 400][..], &[0, 0, 1, 0x90]].concat().repeat(161);
    record.extend(vec![0x11; last.into()]);
    record.extend([0, 0, 0, last, 0, 0, 0, 162]);
    record
}

#[test]
fn a_moved_record_has_at_most_65_536_bytes() {
    let mut out = vec![0; 70_000];
    assert_eq!(record::to_form_2(&growing_record(159), &mut out), Ok(record::MAX));
    assert_eq!(refused_move(record::to_form_2, &growing_record(160), 70_000), Refusal::NoRoom);
}

#[test]
fn sizes_are_those_of_full_records() {
    let mut buffer = vec![0x77; 70_000];
    let mut used = record::new(2, &mut buffer).unwrap();
    let mut entries = 0;
    while let Ok(longer) = record::add(&mut buffer, used, &[3; 20], 0, 162, Some(record::BITS_MAX.into())) {
        assert_eq!(longer, used + 20 + record::ENTRY_OVERHEAD_2);
        (used, entries) = (longer, entries + 1);
    }
    assert_eq!((entries, record::ENTRIES_MAX_2), (2520, 2520));
    assert_eq!(used, record::MIN_2 + 2520 * (20 + record::ENTRY_OVERHEAD_2));
    let mut moved = vec![0; 70_000];
    assert_eq!(
        record::to_form_1(&buffer[..used], &mut moved),
        Ok(record::MIN_1 + 2520 * (20 + record::ENTRY_OVERHEAD_1))
    );
    let full = [&[[3; 20].as_slice(), &[0, 162, 0, 20]].concat().repeat(2730)[..], &2730u32.to_be_bytes()].concat();
    assert_eq!(record::entries(1, &full), Ok(record::ENTRIES_MAX_1));
    assert!(full.len() + 24 > record::MAX);
}

/// A frame of 48 kHz with cause 1, at every duration.
const NO_FRAME: [u8; 20] = [
    0x9e, 0x4f, 0xd3, 0x2d, 0xaa, 0xf8, 0x50, 0x3b, 0x82, 0xc4, 0x0d, 0x61, 0xd5, 0xd2, 0x05, 0x16, 0x86, 0xcd, 0xb3,
    0xb5,
];

/// Reads into slices of these lengths, which have to stay.
fn refused(lines: usize, bits: usize, read: impl Fn(&mut [i32], &mut [u8]) -> Result<Frame, Refusal>) -> Refusal {
    let (mut spectrum, mut residual) = (vec![-7; lines], vec![0xa5; bits]);
    let refusal = read(&mut spectrum, &mut residual).unwrap_err();
    assert!(spectrum.iter().all(|&line| line == -7) && residual.iter().all(|&bit| bit == 0xa5));
    refusal
}

const DURATIONS: [u32; 4] = [10, 20, 30, 40];

/// Durations that are none, 1.25 ms among them; some are in range once they are narrowed.
const NO_DURATIONS: [u32; 9] = [0, 5, 9, 25, 50, 256 + 10, 256 + 40, 65536 + 20, u32::MAX];

#[test]
fn line_counts() {
    for (khz, lines) in [(8, 80), (16, 160), (24, 240), (32, 320), (48, 400)] {
        assert_eq!(DURATIONS.map(|q| line_count(khz, q)), [lines / 4, lines / 2, lines * 3 / 4, lines].map(Some));
        assert_eq!(NO_DURATIONS.map(|q| line_count(khz, q)), [None; 9]);
    }
    for khz in [0, 44, 96, 256 + 8, u32::MAX] {
        assert_eq!(DURATIONS.map(|q| line_count(khz, q)), [None; 4]);
    }
}

#[test]
fn read_frame_refuses_1_then_2_then_5() {
    for quarter_ms in NO_DURATIONS {
        for lines in [0, 100, 400] {
            assert_eq!(refused(lines, 400, |s, r| read_frame(48, quarter_ms, &NO_FRAME, s, r)), Refusal::BadSetting);
        }
    }
    for quarter_ms in DURATIONS {
        for (khz, length) in [(44, 20), (304, 20), (48, 0), (48, 19), (48, 401)] {
            let frame = vec![0xb5; length];
            assert_eq!(refused(400, 399, |s, r| read_frame(khz, quarter_ms, &frame, s, r)), Refusal::BadSetting);
        }
        let all = line_count(48, quarter_ms).unwrap();
        for (lines, bits) in [(all - 1, all), (all + 1, all), (all, all - 1), (all, all + 1), (0, 0), (320, 320)] {
            assert_eq!(refused(lines, bits, |s, r| read_frame(48, quarter_ms, &NO_FRAME, s, r)), Refusal::BadLength);
        }
        let bit_error = Refusal::BitError(Cause::Bandwidth);
        assert_eq!(refused(all, all, |s, r| read_frame(48, quarter_ms, &NO_FRAME, s, r)), bit_error);
    }
}

#[test]
fn read_entry_refuses_1_then_2_then_7_then_1_then_5() {
    let (mut buffer, mut moved) = ([0; 64], [0; 64]);
    let used = record::new(2, &mut buffer).unwrap();
    let used = record::add(&mut buffer, used, &NO_FRAME, 0, 0, Some(0)).unwrap();
    let used_1 = record::to_form_1(&buffer[..used], &mut moved).unwrap();
    for (form, whole) in [(1, &moved[..used_1]), (2, &buffer[..used])] {
        let cut = &whole[..whole.len() - 1];
        for no_form in NO_FORMS {
            assert_eq!(refused(400, 399, |s, r| record::read(no_form, cut, 1, 44, 40, s, r)), Refusal::BadSetting);
            assert_eq!(refused(400, 399, |s, r| record::read(no_form, whole, 0, 48, 40, s, r)), Refusal::BadSetting);
        }
        for q in NO_DURATIONS {
            assert_eq!(refused(400, 399, |s, r| record::read(form, cut, 1, 48, q, s, r)), Refusal::BadSetting);
            assert_eq!(refused(400, 400, |s, r| record::read(form, whole, 0, 48, q, s, r)), Refusal::BadSetting);
        }
        assert_eq!(refused(400, 399, |s, r| record::read(form, cut, 1, 44, 40, s, r)), Refusal::BadSetting);
        assert_eq!(refused(400, 399, |s, r| record::read(form, cut, 1, 48, 40, s, r)), Refusal::BadLength);
        assert_eq!(refused(400, 400, |s, r| record::read(form, cut, 1, 48, 20, s, r)), Refusal::BadLength);
        assert_eq!(refused(400, 400, |s, r| record::read(form, cut, 1, 48, 40, s, r)), Refusal::NotARecord);
        assert_eq!(refused(400, 400, |s, r| record::read(3 - form, whole, 0, 48, 40, s, r)), Refusal::NotARecord);
        assert_eq!(refused(400, 400, |s, r| record::read(form, whole, 1, 48, 40, s, r)), Refusal::BadSetting);
        for quarter_ms in DURATIONS {
            let all = line_count(48, quarter_ms).unwrap();
            assert_eq!(
                refused(all, all, |s, r| record::read(form, whole, 0, 48, quarter_ms, s, r)),
                Refusal::BitError(Cause::Bandwidth)
            );
        }
    }
}

/// A frame to be written at 48 kHz: its fields, its spectrum, its residual bits and its length.
#[derive(Clone)]
struct ToWrite {
    fields: Frame,
    spectrum: Vec<i32>,
    residual: Vec<u8>,
    length: usize,
}

impl ToWrite {
    /// Every line is as large as it can be, far too much for 20 bytes; nothing else is wrong.
    fn too_much(quarter_ms: u32) -> ToWrite {
        let all = line_count(48, quarter_ms).unwrap();
        let filter = Tns { flag: true, order: 2, coefficients: [16, 16, 0, 0, 0, 0, 0, 0] };
        let fields = Frame {
            bandwidth: 4,
            last_line: all as u16,
            gain: 255,
            tns: [filter, if quarter_ms == 10 { Tns::default() } else { filter }],
            shape: Shape { low: 31, high: 31, mode: 0, gain: 1, sign: 1, joint: 33_460_055 },
            pitch: Some(Pitch { filter_flag: true, index: 511 }),
            noise_level: 7,
            residual_bits: all as u16,
            ..Frame::default()
        };
        ToWrite { fields, spectrum: vec![-32_767; all], residual: vec![1; all], length: 20 }
    }

    /// Every line is 0, and there is room.
    fn little(quarter_ms: u32) -> ToWrite {
        let mut little = ToWrite::too_much(quarter_ms);
        (little.fields.last_line, little.fields.residual_bits, little.length) = (2, 0, 60);
        little.spectrum.fill(0);
        little.residual.fill(0);
        little
    }

    /// Another line, and as many residual bits as there are lines that are not 0.
    fn line(&mut self, at: usize, line: i32) {
        self.spectrum[at] = line;
        self.fields.residual_bits = self.spectrum.iter().filter(|&&line| line != 0).count() as u16;
    }

    /// The same, changed.
    fn but(&self, change: impl Fn(&mut ToWrite)) -> ToWrite {
        let mut changed = self.clone();
        change(&mut changed);
        changed
    }

    /// Writes it into a frame, which has to stay where that is refused.
    fn write(&self, khz: u32, quarter_ms: u32) -> Result<u16, Refusal> {
        let mut frame = vec![0xa5; self.length];
        let answer = write_frame(khz, quarter_ms, &self.fields, &self.spectrum, &self.residual, &mut frame);
        assert!(answer.is_ok() || frame.iter().all(|&byte| byte == 0xa5));
        answer
    }
}

type Change = fn(&mut ToWrite);

/// A length or a field that is out of range at every duration.
const OUT_OF_RANGE: [Change; 34] = [
    |w| w.length = 0,
    |w| w.length = 19,
    |w| w.length = 401,
    |w| w.length = 65536 + 20,
    |w| w.fields.bandwidth = 5,
    |w| w.fields.bandwidth = 255,
    |w| w.fields.last_line = 0,
    |w| w.fields.last_line = 1,
    |w| w.fields.last_line = 3,
    |w| w.fields.last_line = w.spectrum.len() as u16 + 2,
    |w| w.fields.last_line = 65534,
    |w| w.fields.lsb_mode = true,
    |w| w.fields.tns[0].flag = false,
    |w| w.fields.tns[0] = Tns { flag: true, ..Tns::default() },
    |w| w.fields.tns[0] = Tns { order: 1, ..Tns::default() },
    |w| w.fields.tns[0] = Tns { coefficients: [8; 8], ..Tns::default() },
    |w| w.fields.tns[0].order = 1,
    |w| w.fields.tns[0].order = 9,
    |w| w.fields.tns[0].coefficients[1] = 17,
    |w| w.fields.tns[0].coefficients[2] = 8,
    |w| w.fields.tns[1] = Tns { flag: true, ..Tns::default() },
    |w| w.fields.tns[1] = Tns { order: 1, ..Tns::default() },
    |w| w.fields.tns[1].coefficients[7] = 1,
    |w| (w.fields.bandwidth, w.fields.tns[1]) = (2, w.fields.tns[0]),
    |w| w.fields.shape.low = 32,
    |w| w.fields.shape.high = 32,
    |w| w.fields.shape.mode = 2,
    |w| w.fields.shape.gain = 2,
    |w| w.fields.shape = Shape { mode: 1, gain: 4, ..Shape::default() },
    |w| w.fields.shape.sign = 2,
    |w| w.fields.shape.joint = 33_460_056,
    |w| w.fields.shape = Shape { mode: 1, joint: 16_708_096, ..Shape::default() },
    |w| w.fields.pitch = Some(Pitch { filter_flag: false, index: 512 }),
    |w| w.fields.noise_level = 8,
];

/// A slice that has not its exact length.
const BAD_LENGTHS: [Change; 6] = [
    |w| w.spectrum.push(0),
    |w| w.spectrum.truncate(w.spectrum.len() - 1),
    |w| w.spectrum.clear(),
    |w| w.residual.push(0),
    |w| w.residual.truncate(w.residual.len() - 1),
    |w| w.residual.clear(),
];

/// A line out of range, at the last line or past it; residual bits that are not those of the lines.
const BAD_LINES: [Change; 12] = [
    |w| w.line(0, 32_768),
    |w| w.line(1, -32_768),
    |w| w.line(1, i32::MIN),
    |w| w.line(0, 65_536 + 1),
    |w| {
        w.fields.last_line = 2;
        w.line(2, 1);
    },
    |w| {
        w.fields.last_line = w.spectrum.len() as u16 - 2;
        w.line(w.spectrum.len() - 1, -1);
    },
    |w| w.fields.residual_bits += 1,
    |w| w.fields.residual_bits = u16::MAX,
    |w| {
        w.line(0, 1);
        w.fields.residual_bits -= 1;
    },
    |w| {
        w.line(0, 1);
        w.residual[0] = 2;
    },
    |w| {
        w.line(0, 1);
        w.residual[0] = 255;
    },
    |w| {
        w.line(1, 0);
        w.residual[usize::from(w.fields.residual_bits)] = 1;
    },
];

#[test]
fn write_frame_refuses_1_then_2_then_1_then_8() {
    for q in DURATIONS {
        for (lent, answer) in [(ToWrite::too_much(q), Err(Refusal::FrameTooSmall)), (ToWrite::little(q), Ok(0))] {
            assert_eq!(lent.write(48, q), answer);
            for (at, lines) in BAD_LINES.iter().enumerate() {
                let lent = lent.but(lines);
                assert_eq!(lent.write(48, q), Err(Refusal::BadSetting), "{at}");
                for of_length in BAD_LENGTHS {
                    assert_eq!(lent.but(of_length).write(48, q), Err(Refusal::BadLength), "{at}");
                }
            }
            for of_length in BAD_LENGTHS {
                let lent = lent.but(of_length);
                assert_eq!(lent.write(48, q), Err(Refusal::BadLength));
                for khz in [0, 44, 256 + 48, u32::MAX] {
                    assert_eq!(lent.write(khz, q), Err(Refusal::BadSetting));
                }
                for quarter_ms in NO_DURATIONS {
                    assert_eq!(lent.write(48, quarter_ms), Err(Refusal::BadSetting));
                }
            }
            for (at, field) in OUT_OF_RANGE.iter().enumerate() {
                let lent = lent.but(field);
                assert_eq!(lent.write(48, q), Err(Refusal::BadSetting), "{at}");
                for of_length in BAD_LENGTHS {
                    assert_eq!(lent.but(of_length).write(48, q), Err(Refusal::BadSetting), "{at}");
                }
            }
        }
    }
}

#[test]
fn write_frame_takes_the_filters_of_the_duration() {
    for q in DURATIONS {
        for order in 2..=8 {
            let lent = ToWrite::little(q).but(|w| w.fields.tns[0].order = order);
            let answer = if q <= 20 && order > 4 { Err(Refusal::BadSetting) } else { Ok(0) };
            assert_eq!(lent.write(48, q), answer, "{q} {order}");
        }
        let lent = ToWrite::little(q).but(|w| w.fields.tns[1] = w.fields.tns[0]);
        assert_eq!(lent.write(48, q), if q == 10 { Err(Refusal::BadSetting) } else { Ok(0) });
    }
}
