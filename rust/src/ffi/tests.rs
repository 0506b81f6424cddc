//! The structs as the library lays them out, beside those of this crate. A struct of at most 16 bytes comes back in two
//! registers, low bytes first (System V, x86-64): here each function returns these two, whose bytes are the library's own.
//! A larger one is written where the caller says, by a pointer that goes first, and is lent as its bytes on the stack.

use std::mem::{align_of, offset_of, size_of};

use super::{
    Added, Entries, Entry, Frame, Unprotected, Written, protect, record_add, record_new, record_to_form_1,
    unprotect_each,
};

#[repr(C)]
struct Registers {
    low: u64,
    high: u64,
}

/// The bytes of a `Frame`.
#[repr(C, align(4))]
#[derive(Clone, Copy)]
struct Fields([u8; 48]);

unsafe extern "C" {
    #[link_name = "silberlaus_unprotect"]
    fn raw_unprotect(size: usize, mode: u32, slot: *const u8, n: usize, frame: *mut u8, m: usize) -> Registers;
    #[link_name = "silberlaus_read_frame"]
    fn raw_read_frame(
        to: *mut u8,
        khz: u32,
        quarter_ms: u32,
        f: *const u8,
        n: usize,
        s: *mut i32,
        l: usize,
        r: *mut u8,
        m: usize,
    ) -> *mut u8;
    #[link_name = "silberlaus_write_frame"]
    fn raw_write_frame(
        khz: u32,
        quarter_ms: u32,
        fields: Fields,
        s: *const i32,
        l: usize,
        r: *const u8,
        m: usize,
        f: *mut u8,
        n: usize,
    ) -> Registers;
    #[link_name = "silberlaus_record_entries"]
    fn raw_entries(form: u32, record: *const u8, used: usize) -> Registers;
    #[link_name = "silberlaus_record_entry"]
    fn raw_entry(form: u32, record: *const u8, used: usize, place: usize) -> Registers;
    #[link_name = "silberlaus_record_add"]
    fn raw_add(
        buffer: *mut u8,
        n: usize,
        used: usize,
        frame: *const u8,
        m: usize,
        request: u32,
        count: u32,
        bits: u32,
        length: u32,
    ) -> Registers;
    #[link_name = "silberlaus_record_to_form_1"]
    fn raw_to_form_1(record: *const u8, used: usize, out: *mut u8, n: usize) -> Registers;
    #[link_name = "silberlaus_record_to_form_2"]
    fn raw_to_form_2(record: *const u8, used: usize, out: *mut u8, n: usize) -> Registers;
}

/// The library's bytes at a field's place are the value that the library must have given it.
#[track_caller]
fn field(answer: &Registers, at: usize, width: usize, value: u64) {
    let mut bytes = [0; 16];
    bytes[..8].copy_from_slice(&answer.low.to_le_bytes());
    bytes[8..].copy_from_slice(&answer.high.to_le_bytes());
    assert_eq!(bytes[at..at + width], value.to_le_bytes()[..width]);
}

const MODE: u32 = 4;
const FRAME: [u8; 233] = [0x3c; 233];

/// The slot of `FRAME` with request 3, three semi-octets changed in each of its 54 words, two bits in each: the bits take
/// more than one byte.
fn damaged_slot() -> [u8; 400] {
    let mut slot = [0; 400];
    assert_eq!(protect(400, MODE, 3, &FRAME, &mut slot), 0);
    for byte in &mut slot[..81] {
        *byte ^= 0x99;
    }
    slot
}

/// Entries of 400 bytes, each with request 2, count 161 and bits that take two bytes; as many as a record of form 2 has
/// room for.
const LONG_ENTRIES: u64 = 161;
const BITS: u32 = 0x203;

/// The record of these in form 2, and its length.
fn long_record() -> (Vec<u8>, usize) {
    let mut buffer = vec![0; 65536];
    assert_eq!(record_new(2, &mut buffer), 0);
    let mut used = 5;
    for _ in 0..LONG_ENTRIES {
        used = record_add(&mut buffer, used, &[1; 400], 2, 161, BITS).used as usize;
    }
    (buffer, used)
}

/// The same in form 1.
fn long_record_1() -> (Vec<u8>, usize) {
    let (record, used) = long_record();
    let mut out = vec![0; 65536];
    let moved = record_to_form_1(&record[..used], &mut out).used as usize;
    (out, moved)
}

#[test]
fn sizes() {
    assert_eq!((size_of::<Unprotected>(), align_of::<Unprotected>()), (6, 2));
    assert_eq!((size_of::<Frame>(), align_of::<Frame>()), (48, 4));
    assert_eq!((size_of::<Fields>(), align_of::<Fields>()), (48, 4));
    assert_eq!((size_of::<Written>(), align_of::<Written>()), (4, 2));
    assert_eq!((size_of::<Added>(), align_of::<Added>()), (8, 4));
    assert_eq!((size_of::<Entries>(), align_of::<Entries>()), (8, 4));
    assert_eq!((size_of::<Entry>(), align_of::<Entry>()), (12, 4));
}

#[test]
fn unprotected() {
    let (slot, mut frame) = (damaged_slot(), [0; 233]);
    // SAFETY: both slices are good for their lengths, and the struct comes back in registers.
    let r = unsafe { raw_unprotect(400, MODE, slot.as_ptr(), 400, frame.as_mut_ptr(), 233) };
    field(&r, offset_of!(Unprotected, number), 1, 0);
    field(&r, offset_of!(Unprotected, request), 1, 3);
    field(&r, offset_of!(Unprotected, semi_octets), 2, 162);
    field(&r, offset_of!(Unprotected, bits), 2, 324);
    // SAFETY: as above; the frame is lent one byte short.
    let r = unsafe { raw_unprotect(400, MODE, slot.as_ptr(), 400, frame.as_mut_ptr(), 232) };
    field(&r, offset_of!(Unprotected, number), 1, 2);
    field(&r, offset_of!(Unprotected, request), 1, 0);
    field(&r, offset_of!(Unprotected, semi_octets), 2, 0);
    field(&r, offset_of!(Unprotected, bits), 2, 0);
}

/// Fourteen arguments, eight of them on the stack: each buffer gets what is its own, and each length is that of its buffer.
#[test]
fn unprotected_each() {
    let slots = [damaged_slot(), [0; 400]].concat();
    let lent = || ([7; 3], [7; 3], [7; 3], [7; 3], [7; 467]);
    let unprotect = |lengths: [usize; 6]| {
        let (mut numbers, mut requests, mut semi_octets, mut bits, mut frames) = lent();
        let [s, n, r, o, b, f] = lengths;
        let (numbers_lent, requests_lent) = (&mut numbers[..n], &mut requests[..r]);
        let (counts_lent, bits_lent) = (&mut semi_octets[..o], &mut bits[..b]);
        let frames_lent = &mut frames[..f];
        let number =
            unprotect_each(400, MODE, &slots[..s], numbers_lent, requests_lent, counts_lent, bits_lent, frames_lent);
        (number, (numbers, requests, semi_octets, bits, frames))
    };
    let right = [800, 2, 2, 2, 2, 466];
    let frames = [&FRAME[..], &[7; 234]].concat().try_into().unwrap();
    assert_eq!(unprotect(right), (0, ([0, 3, 7], [3, 0, 7], [162, 0, 7], [324, 0, 7], frames)));
    for part in 0..6 {
        let mut short = right;
        short[part] -= 1;
        assert_eq!(unprotect(short), (2, lent()));
        if part > 0 {
            let mut long = right;
            long[part] += 1;
            assert_eq!(unprotect(long), (2, lent()));
        }
    }
}

#[test]
fn added() {
    let mut buffer = vec![0; 66000];
    assert_eq!(record_new(2, &mut buffer), 0);
    let (mut used, frame) = (5, [1; 400]);
    for _ in 0..LONG_ENTRIES {
        // SAFETY: both slices are good for their lengths, and the struct comes back in registers.
        let r = unsafe { raw_add(buffer.as_mut_ptr(), 66000, used, frame.as_ptr(), 400, 2, 161, BITS, 400) };
        used += 406;
        field(&r, offset_of!(Added, number), 1, 0);
        field(&r, offset_of!(Added, used), 4, used as u64);
    }
    // SAFETY: as above; there is no room for one more.
    let r = unsafe { raw_add(buffer.as_mut_ptr(), 66000, used, frame.as_ptr(), 400, 2, 161, BITS, 400) };
    field(&r, offset_of!(Added, number), 1, 6);
    field(&r, offset_of!(Added, used), 4, 0);
}

#[test]
fn moved() {
    let ((record, used), (record_1, used_1), mut out) = (long_record(), long_record_1(), vec![0; 65536]);
    // SAFETY: each slice is good for its length, and the struct comes back in registers.
    let answers = unsafe {
        [
            (raw_to_form_1(record.as_ptr(), used, out.as_mut_ptr(), 65536), 0, used_1),
            (raw_to_form_2(record_1.as_ptr(), used_1, out.as_mut_ptr(), 65536), 0, used),
            (raw_to_form_1(record.as_ptr(), used, out.as_mut_ptr(), used_1 - 1), 6, 0),
            (raw_to_form_2(record.as_ptr(), used, out.as_mut_ptr(), 65536), 7, 0),
        ]
    };
    assert_eq!((used, used_1), (5 + 161 * 406, 4 + 161 * 404));
    for (answer, number, used) in answers {
        field(&answer, offset_of!(Added, number), 1, number);
        field(&answer, offset_of!(Added, used), 4, used as u64);
    }
}

#[test]
fn entries() {
    let ((record, used), (record_1, used_1)) = (long_record(), long_record_1());
    // SAFETY: each record is good for its length, and the struct comes back in registers.
    let answers = unsafe {
        [
            (raw_entries(2, record.as_ptr(), used), 0, LONG_ENTRIES),
            (raw_entries(1, record_1.as_ptr(), used_1), 0, LONG_ENTRIES),
            (raw_entries(2, record.as_ptr(), used - 1), 7, 0),
            (raw_entries(3, record.as_ptr(), used), 1, 0),
        ]
    };
    for (answer, number, entries) in answers {
        field(&answer, offset_of!(Entries, number), 1, number);
        field(&answer, offset_of!(Entries, entries), 4, entries);
    }
}

#[test]
fn entry() {
    let ((record, used), (record_1, used_1)) = (long_record(), long_record_1());
    // SAFETY: each record is good for its length, and the struct comes back in registers.
    let answers = unsafe {
        [
            (raw_entry(2, record.as_ptr(), used, 160), [0, 2, 161, 400, BITS.into(), 160 * 406]),
            (raw_entry(1, record_1.as_ptr(), used_1, 160), [0, 2, 161, 400, 65535, 160 * 404]),
            (raw_entry(2, record.as_ptr(), used, 161), [1, 0, 0, 0, 0, 0]),
        ]
    };
    for (answer, [number, request, count, length, bits, start]) in answers {
        field(&answer, offset_of!(Entry, number), 1, number);
        field(&answer, offset_of!(Entry, request), 1, request);
        field(&answer, offset_of!(Entry, count), 1, count);
        field(&answer, offset_of!(Entry, length), 2, length);
        field(&answer, offset_of!(Entry, bits), 2, bits);
        field(&answer, offset_of!(Entry, start), 4, start);
    }
}

/// What the library writes for a frame of 48 kHz and 10 ms: the struct's bytes, and none beside them.
fn frame_bytes(frame: &[u8], paint: u8) -> [u8; 48] {
    frame_and_lines(frame, paint).0
}

/// These, the lines and the residual bits.
fn frame_and_lines(frame: &[u8], paint: u8) -> ([u8; 48], [i32; 400], [u8; 400]) {
    let (mut spectrum, mut residual) = ([0; 400], [0; 400]);
    let mut room = [u32::from_ne_bytes([paint; 4]); 20];
    let to = room[4..].as_mut_ptr().cast::<u8>();
    let (lines, bits) = (spectrum.as_mut_ptr(), residual.as_mut_ptr());
    // SAFETY: the slices are good for their lengths, and from `to` on there is aligned room for more than the struct.
    let given = unsafe { raw_read_frame(to, 48, 40, frame.as_ptr(), frame.len(), lines, 400, bits, 400) };
    assert_eq!(given, to);
    let bytes: Vec<u8> = room.iter().flat_map(|word| word.to_ne_bytes()).collect();
    assert!(bytes[..16].iter().chain(&bytes[64..]).all(|&byte| byte == paint));
    (bytes[16..64].try_into().unwrap(), spectrum, residual)
}

// three lines of tests/frame/frames.txt at 48 kHz; every field but two is something else than 0 in one of them
const TWO_FILTERS: [u8; 40] = [
    0xdc, 0x6f, 0x60, 0xc9, 0x7d, 0x42, 0xd2, 0xe4, 0x35, 0xab, 0x28, 0x3b, 0xec, 0x57, 0xb1, 0xec, 0x0f, 0xc1, 0xc4,
    0x32, 0xe6, 0x0b, 0x0a, 0xd1, 0xc7, 0xe7, 0xb0, 0x59, 0x4f, 0x5d, 0xc6, 0xbb, 0xfa, 0x50, 0x44, 0x2a, 0xaf, 0x3d,
    0x81, 0xdc,
];
const PITCH: [u8; 26] = [
    0x99, 0xda, 0x7c, 0x86, 0xaa, 0xc6, 0xdb, 0xf9, 0xe1, 0x35, 0x31, 0x66, 0x05, 0xf7, 0x60, 0x8c, 0xcd, 0xf0, 0x3a,
    0x22, 0x82, 0xaf, 0x85, 0x7d, 0xd0, 0xf2,
];
const NO_FRAME: [u8; 20] = [
    0x9e, 0x4f, 0xd3, 0x2d, 0xaa, 0xf8, 0x50, 0x3b, 0x82, 0xc4, 0x0d, 0x61, 0xd5, 0xd2, 5, 0x16, 0x86, 0xcd, 0xb3, 0xb5,
];

#[test]
fn frame() {
    for paint in [0, 0xff] {
        let b = frame_bytes(&TWO_FILTERS, paint);
        fields(&b, [0, 0, 4, 0, 216, 1, 1, 0, 30, 10, 1, 2, 0, 0, 7, 8, 5], [120, 0, 25, 78], 13795873);
        assert_eq!(b[offset_of!(Frame, tns_coefficients_0)..][..8], [6, 9, 6, 5, 7, 9, 7, 11]);
        assert_eq!(b[offset_of!(Frame, tns_coefficients_1)..][..8], [14, 11, 4, 9, 7, 0, 0, 0]);
        let b = frame_bytes(&PITCH, paint);
        fields(&b, [0, 0, 2, 0, 221, 1, 0, 1, 21, 16, 1, 3, 1, 1, 7, 6, 0], [62, 385, 12, 39], 10627114);
        let b = frame_bytes(&NO_FRAME, paint);
        fields(&b, [5, 1, 0, 0, 0, 0, 0, 0, 0, 0, 0, 0, 0, 0, 0, 0, 0], [0; 4], 0);
    }
}

/// The fields of one byte in the header's order, those of two bytes, and the joint index.
#[track_caller]
fn fields(bytes: &[u8; 48], narrow: [u8; 17], wide: [u16; 4], joint: u32) {
    let places = [
        offset_of!(Frame, number),
        offset_of!(Frame, cause),
        offset_of!(Frame, bandwidth),
        offset_of!(Frame, lsb_mode),
        offset_of!(Frame, gain),
        offset_of!(Frame, tns_flag_0),
        offset_of!(Frame, tns_flag_1),
        offset_of!(Frame, pitch_present),
        offset_of!(Frame, shape_low),
        offset_of!(Frame, shape_high),
        offset_of!(Frame, shape_mode),
        offset_of!(Frame, shape_gain),
        offset_of!(Frame, shape_sign),
        offset_of!(Frame, filter_flag),
        offset_of!(Frame, noise_level),
        offset_of!(Frame, tns_order_0),
        offset_of!(Frame, tns_order_1),
    ];
    assert_eq!(places.map(|at| bytes[at]), narrow);
    let places = [
        offset_of!(Frame, last_line),
        offset_of!(Frame, pitch_index),
        offset_of!(Frame, residual_bits),
        offset_of!(Frame, symbols),
    ];
    assert_eq!(places.map(|at| u16::from_le_bytes([bytes[at], bytes[at + 1]])), wide);
    assert_eq!(bytes[offset_of!(Frame, shape_joint)..][..4], joint.to_le_bytes());
}

/// Writes a frame of 48 kHz and 10 ms from the struct's bytes, and has to answer so.
#[track_caller]
fn writes(fields: [u8; 48], spectrum: &[i32], residual: &[u8], frame: &mut [u8], [number, sent]: [u64; 2]) {
    let (lines, bits, to) = (spectrum.as_ptr(), residual.as_ptr(), frame.as_mut_ptr());
    let (l, m, n) = (spectrum.len(), residual.len(), frame.len());
    // SAFETY: each slice is good for its length, and the struct comes back in registers.
    let r = unsafe { raw_write_frame(48, 40, Fields(fields), lines, l, bits, m, to, n) };
    field(&r, offset_of!(Written, number), 1, number);
    field(&r, offset_of!(Written, residual_bits), 2, sent);
}

/// Fields with 0 everywhere but in the last line and the number of residual bits.
fn plain(last_line: u16, residual_bits: u16) -> [u8; 48] {
    let mut fields = [0; 48];
    fields[offset_of!(Frame, last_line)..][..2].copy_from_slice(&last_line.to_le_bytes());
    fields[offset_of!(Frame, residual_bits)..][..2].copy_from_slice(&residual_bits.to_le_bytes());
    fields
}

#[test]
fn written() {
    let (fields, mut frame) = (plain(400, 400), [0xa5; 400]);
    writes(fields, &[1; 400], &[1; 400], &mut frame[..19], [1, 0]);
    writes(fields, &[1; 399], &[1; 400], &mut frame, [2, 0]);
    writes(fields, &[1; 400], &[1; 400], &mut frame[..20], [8, 0]);
    assert_eq!(frame, [0xa5; 400]);
    writes(fields, &[1; 400], &[1; 400], &mut frame, [0, 400]);
}

/// What reading gave is taken where it stands, whatever is in the fields that are not looked at and between the fields; both
/// frames are full, so that as many residual bits are sent as were read.
#[test]
fn lent_fields() {
    for (frame, sent) in [(&TWO_FILTERS[..], 25), (&PITCH, 12)] {
        for paint in [0, 0xff] {
            let (mut fields, spectrum, residual) = frame_and_lines(frame, paint);
            let lines = spectrum.iter().filter(|&&line| line != 0).count() as u16;
            fields[offset_of!(Frame, number)] = paint;
            fields[offset_of!(Frame, cause)] = paint;
            fields[offset_of!(Frame, symbols)..][..2].fill(paint);
            fields[offset_of!(Frame, residual_bits)..][..2].copy_from_slice(&lines.to_le_bytes());
            let mut back = vec![!paint; frame.len()];
            writes(fields, &spectrum, &residual, &mut back, [0, sent]);
            assert_eq!(back, frame);
        }
    }
}

/// Fields that no `Frame` of the safe functions holds: flags above 1, and something of a pitch that is not there.
#[test]
fn fields_beyond_the_safe_ones() {
    let (mut frame, mut right) = ([0xa5; 40], plain(2, 0));
    let mut refused = |mut fields: [u8; 48], at: usize, value: u8| {
        fields[at] = value;
        writes(fields, &[0; 400], &[0; 400], &mut frame, [1, 0]);
    };
    for flag in [2, 3, 255] {
        refused(right, offset_of!(Frame, lsb_mode), flag);
        refused(right, offset_of!(Frame, tns_flag_0), flag);
        refused(right, offset_of!(Frame, tns_flag_1), flag);
        refused(right, offset_of!(Frame, pitch_present), flag);
    }
    refused(right, offset_of!(Frame, filter_flag), 1);
    refused(right, offset_of!(Frame, pitch_index), 1);
    refused(right, offset_of!(Frame, pitch_index) + 1, 1);
    right[offset_of!(Frame, pitch_present)] = 1;
    refused(right, offset_of!(Frame, filter_flag), 2);
    assert_eq!(frame, [0xa5; 40]);
    writes(right, &[0; 400], &[0; 400], &mut frame, [0, 0]);
}
