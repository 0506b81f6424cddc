//! Every line of the seven lists (README.md in tests/slot, tests/frame, tests/writer and tests/record of the repository)
//! through the safe functions.

use std::collections::BTreeMap;
use std::fs;
use std::path::Path;

use silberlaus::{
    Frame, Pitch, Refusal, Shape, Tns, frame_size, line_count, protect, read_frame, record, unprotect, unprotect_each,
    unprotected, write_frame,
};

fn list(name: &str) -> Vec<Vec<String>> {
    let path = Path::new(env!("CARGO_MANIFEST_DIR")).join("../tests").join(name);
    let text = fs::read_to_string(path).unwrap();
    text.lines().map(|line| line.split(' ').map(String::from).collect()).collect()
}

fn bytes(hex: &str) -> Vec<u8> {
    if hex == "-" {
        return Vec::new();
    }
    (0..hex.len()).step_by(2).map(|at| u8::from_str_radix(&hex[at..at + 2], 16).unwrap()).collect()
}

#[test]
fn protect_list() {
    let lines = list("slot/protect.txt");
    for line in &lines {
        let [size, mode, request, frame, slot] = &line[..] else { panic!("five fields") };
        let (mode, request) = (mode.parse().unwrap(), request.parse::<u8>().unwrap());
        let (frame, slot) = (bytes(frame), bytes(slot));
        assert_eq!(frame_size(size.parse().unwrap(), mode), Some(frame.len()));
        let (mut made, mut back) = (vec![0xa5; slot.len()], vec![0xa5; frame.len()]);
        protect(mode, request.into(), &frame, &mut made).unwrap();
        assert_eq!(made, slot);
        let got = unprotect(mode, &slot, &mut back).expect("a slot that was just made");
        assert_eq!((got.request, got.semi_octets, got.bits), (request, 0, 0));
        assert_eq!(back, frame);
    }
    assert_eq!(lines.len(), 181);
}

/// Unprotects every slot of a list: how many lines it has, and how many of them no call can be made of. Those have a slot of
/// another length than its size, which C refuses with 2; here the slice's length is the size.
fn unprotect_lines(name: &str) -> (usize, usize) {
    let (lines, mut left_out) = (list(name), 0);
    for line in &lines {
        let [size, mode, slot, number, request, semi_octets, bits, frame] = &line[..] else { panic!("eight fields") };
        let (size, mode, slot) = (size.parse::<usize>().unwrap(), mode.parse().unwrap(), bytes(slot));
        if slot.len() != size {
            assert_eq!(number, "2");
            left_out += 1;
            continue;
        }
        let mut back = vec![0xa5; frame_size(size, mode).unwrap_or(32)];
        match unprotect(mode, &slot, &mut back) {
            Ok(got) => {
                assert_eq!(number, "0");
                assert_eq!(got.request, request.parse::<u8>().unwrap());
                assert_eq!(got.semi_octets, semi_octets.parse::<u16>().unwrap());
                assert_eq!(got.bits, bits.parse::<u16>().unwrap());
                assert_eq!(back, bytes(frame));
            }
            Err(refusal) => {
                assert_eq!(refusal.number(), number.parse::<u8>().unwrap());
                assert!(back.iter().all(|&byte| byte == 0xa5));
            }
        }
    }
    (lines.len(), left_out)
}

#[test]
fn unprotect_lists() {
    assert_eq!(unprotect_lines("slot/unprotect.txt"), (299, 0));
    assert_eq!(unprotect_lines("slot/unprotect_bits.txt"), (180, 2));
}

/// The slots of some lines of one size and mode, end to end: each is answered and its frame written as its line says; the place
/// of a refused one stays.
fn unprotect_together(size: usize, mode: u32, lines: &[&Vec<String>]) {
    let (n, length) = (lines.len(), frame_size(size, mode).unwrap());
    let slots: Vec<u8> = lines.iter().flat_map(|line| bytes(&line[2])).collect();
    let (mut numbers, mut requests) = (vec![0xa5; n], vec![0xa5; n]);
    let (mut semi_octets, mut bits) = (vec![0xa5a5; n], vec![0xa5a5; n]);
    let mut frames = vec![0xa5; n * length];
    unprotect_each(size, mode, &slots, &mut numbers, &mut requests, &mut semi_octets, &mut bits, &mut frames).unwrap();
    for (i, line) in lines.iter().enumerate() {
        assert_eq!(numbers[i], number::<u8>(&line[3]));
        assert_eq!(requests[i], number::<u8>(&line[4]));
        assert_eq!((semi_octets[i], bits[i]), (number::<u16>(&line[5]), number::<u16>(&line[6])));
        let (place, mut alone) = (&frames[i * length..][..length], vec![0xa5; length]);
        assert_eq!(place, if numbers[i] == 0 { bytes(&line[7]) } else { alone.clone() });
        let answer = unprotected(numbers[i], requests[i], semi_octets[i], bits[i]);
        assert_eq!(answer, unprotect(mode, &slots[i * size..][..size], &mut alone));
        assert_eq!(place, alone);
    }
}

#[test]
fn unprotect_lists_end_to_end() {
    let all = [list("slot/unprotect.txt"), list("slot/unprotect_bits.txt")].concat();
    let mut together = BTreeMap::<(usize, u32), Vec<&Vec<String>>>::new();
    for line in all.iter().filter(|line| ["0", "3", "4"].contains(&&line[3][..])) {
        together.entry((number(&line[0]), number(&line[1]))).or_default().push(line);
    }
    for ((size, mode), lines) in &together {
        unprotect_together(*size, *mode, lines);
    }
    assert_eq!(together.values().map(Vec::len).sum::<usize>(), 299 + 180 - 4);
}

/// Numbers with commas between them; `-` is none. Those that are not there are 0.
fn numbers<const N: usize>(text: &str) -> [i32; N] {
    let mut numbers = [0; N];
    for (at, number) in text.split(',').filter(|&number| number != "-").enumerate() {
        numbers[at] = number.parse().unwrap();
    }
    numbers
}

/// The fields as the list has them, from the bandwidth to the number of residual bits.
fn listed(frame: &Frame) -> Vec<String> {
    let (tns, shape) = (&frame.tns, &frame.shape);
    let (filter_flag, index) = frame.pitch.map_or((0, 0), |pitch| (pitch.filter_flag.into(), pitch.index.into()));
    let sent = |filter: usize| {
        let sent = &tns[filter].coefficients[..tns[filter].order.into()];
        assert!(tns[filter].coefficients[sent.len()..].iter().all(|&index| index == 0));
        if sent.is_empty() { "-".into() } else { sent.iter().map(u8::to_string).collect::<Vec<_>>().join(",") }
    };
    let mut fields: Vec<String> = [
        frame.bandwidth.into(),
        frame.last_line.into(),
        frame.lsb_mode.into(),
        frame.gain.into(),
        tns[0].flag.into(),
        tns[1].flag.into(),
        frame.pitch.is_some().into(),
        shape.low.into(),
        shape.high.into(),
        shape.mode.into(),
        shape.gain.into(),
        shape.sign.into(),
        shape.joint,
        filter_flag,
        index,
        frame.noise_level.into(),
        tns[0].order.into(),
        tns[1].order.into(),
    ]
    .map(|field: u32| field.to_string())
    .into();
    fields.extend([sent(0), sent(1), frame.symbols.to_string(), frame.residual_bits.to_string()]);
    fields
}

/// Digits with nothing between them; `-` is none. Those that are not there are 0.
fn digits(text: &str, count: usize) -> Vec<u8> {
    let digits = text.bytes().filter(|&digit| digit != b'-').map(|digit| digit - b'0');
    digits.chain(std::iter::repeat(0)).take(count).collect()
}

/// A frame of that rate and duration; `line` is the rest of its line, from the frame on.
fn frame_line(khz: u32, quarter_ms: u32, line: &[String]) {
    let frame = bytes(&line[0]);
    let count = line_count(khz, quarter_ms).unwrap_or(400);
    let (mut spectrum, mut residual) = (vec![-7; count], vec![0xa5; count]);
    match read_frame(khz, quarter_ms, &frame, &mut spectrum, &mut residual) {
        Ok(fields) => {
            assert_eq!(line[1..3], ["0", "0"]);
            assert_eq!(listed(&fields), line[3..25]);
            assert_eq!(residual, digits(&line[25], count));
            assert_eq!(spectrum, numbers::<400>(&line[26])[..count]);
        }
        Err(refusal) => {
            let cause = if let Refusal::BitError(cause) = refusal { cause as u8 } else { 0 };
            assert_eq!(line[1..], [refusal.number().to_string(), cause.to_string()]);
            assert!(spectrum.iter().all(|&line| line == -7) && residual.iter().all(|&bit| bit == 0xa5));
        }
    }
    reads_as_entry(khz, quarter_ms, &frame, &spectrum, &residual);
}

#[test]
fn frames_lists() {
    let (of_10_ms, of_all) = (list("frame/frames.txt"), list("frame/read_durations.txt"));
    for line in &of_10_ms {
        frame_line(number(&line[0]), 40, &line[1..]);
    }
    for line in &of_all {
        frame_line(number(&line[0]), number(&line[1]), &line[2..]);
    }
    assert_eq!((of_10_ms.len(), of_all.len()), (388, 468));
}

/// The frame as an entry of a record reads as the frame alone does, where it can be one, in both forms.
fn reads_as_entry(khz: u32, quarter_ms: u32, frame: &[u8], spectrum: &[i32], residual: &[u8]) {
    let (mut buffer, mut moved) = (vec![0; 1024], vec![0; 1024]);
    let used = record::new(2, &mut buffer).unwrap();
    let Ok(used) = record::add(&mut buffer, used, frame, 0, 0, Some(0)) else { return };
    let used_1 = record::to_form_1(&buffer[..used], &mut moved).unwrap();
    for (form, whole) in [(1, &moved[..used_1]), (2, &buffer[..used])] {
        let (mut lines, mut bits) = (vec![-7; spectrum.len()], vec![0xa5; residual.len()]);
        let alone = read_frame(khz, quarter_ms, frame, &mut lines.clone(), &mut bits.clone());
        assert_eq!(record::read(form, whole, 0, khz, quarter_ms, &mut lines, &mut bits), alone);
        assert_eq!((&lines[..], &bits[..]), (spectrum, residual));
    }
}

/// The fields of a line, from the bandwidth to the number of residual bits. `None` where C lends what no `Frame` holds: a flag
/// above 1, or something of a pitch that is not there.
fn given(line: &[String]) -> Option<Frame> {
    let flags = [2, 4, 5, 6, 13].map(|at| number::<u8>(&line[at]));
    let pitch = Pitch { filter_flag: flags[4] == 1, index: number(&line[14]) };
    let filter = |at: usize| Tns {
        flag: flags[1 + at] == 1,
        order: number(&line[16 + at]),
        coefficients: numbers::<8>(&line[18 + at]).map(|index| index.try_into().unwrap()),
    };
    if flags.iter().any(|&flag| flag > 1) || flags[3] == 0 && pitch != Pitch::default() {
        return None;
    }
    Some(Frame {
        bandwidth: number(&line[0]),
        last_line: number(&line[1]),
        lsb_mode: flags[0] == 1,
        gain: number(&line[3]),
        tns: [filter(0), filter(1)],
        shape: Shape {
            low: number(&line[7]),
            high: number(&line[8]),
            mode: number(&line[9]),
            gain: number(&line[10]),
            sign: number(&line[11]),
            joint: number(&line[12]),
        },
        pitch: (flags[3] == 1).then_some(pitch),
        noise_level: number(&line[15]),
        residual_bits: number(&line[20]),
        symbols: 0,
    })
}

/// Symbols of a frame that was written: an order and as many coefficients for each filter, an escape for each halving of a pair
/// and one more.
fn symbols_of(fields: &Frame, spectrum: &[i32]) -> u16 {
    let filters = fields.tns.iter().filter(|filter| filter.flag).map(|filter| 1 + u16::from(filter.order));
    let pairs = spectrum[..fields.last_line.into()].chunks(2);
    let halvings = pairs.map(|pair| (pair[0].abs() | pair[1].abs() | 2).ilog2() - 1);
    filters.sum::<u16>() + halvings.map(|halvings| halvings as u16 + 1).sum::<u16>()
}

/// Whether a call can be made of the line. A frame that is written reads back: all but the residual bits that were not sent.
fn write_line(line: &[String]) -> bool {
    let (khz, quarter_ms, length) = (number(&line[0]), number(&line[1]), number(&line[2]));
    let Some(fields) = given(&line[3..24]) else {
        assert_eq!(line[28..], ["1", "0", "-"]);
        return false;
    };
    let spectrum = &numbers::<400>(&line[26])[..number(&line[24])];
    let mut residual = digits(&line[27], number(&line[25]));
    let mut frame = vec![0xa5; length];
    let (got, sent) = number_and(write_frame(khz, quarter_ms, &fields, spectrum, &residual, &mut frame));
    assert_eq!((got, sent.unwrap_or(0)), (number(&line[28]), number(&line[29])));
    let Some(sent) = sent else {
        assert_eq!((&line[30][..], frame), ("-", vec![0xa5; length]));
        return true;
    };
    assert_eq!(frame, bytes(&line[30]));
    let (mut lines, mut bits) = (vec![-7; spectrum.len()], vec![0xa5; residual.len()]);
    let back = read_frame(khz, quarter_ms, &frame, &mut lines, &mut bits);
    assert_eq!(back, Ok(Frame { residual_bits: sent, symbols: symbols_of(&fields, spectrum), ..fields }));
    residual[sent.into()..].fill(0);
    assert_eq!((&lines[..], bits), (spectrum, residual));
    true
}

#[test]
fn write_frames_list() {
    let lines = list("writer/write_frames.txt");
    let left_out = lines.iter().filter(|line| !write_line(line)).count();
    assert_eq!((lines.len(), left_out), (407, 10));
}

/// The number of an answer, and what it holds where it is 0.
fn number_and<T>(answer: Result<T, Refusal>) -> (u8, Option<T>) {
    match answer {
        Ok(value) => (0, Some(value)),
        Err(refusal) => (refusal.number(), None),
    }
}

fn number<T: std::str::FromStr<Err: std::fmt::Debug>>(field: &str) -> T {
    field.parse().unwrap()
}

/// A buffer as it stands after a call that was lent `lent`; `=` is as lent.
fn after(field: &str, lent: &str) -> Vec<u8> {
    bytes(if field == "=" { lent } else { field })
}

/// Bits as the list has them, where 65,535 is unknown.
fn known(bits: u32) -> Option<u32> {
    (bits != 65535).then_some(bits)
}

fn new_line([form, buffer, want, left]: [&str; 4]) {
    let mut lent = bytes(buffer);
    let (got, used) = number_and(record::new(number(form), &mut lent));
    assert_eq!((got, lent), (number(want), after(left, buffer)));
    assert_eq!(used, (got == 0).then_some(3 + number::<usize>(form)));
}

fn entries_line([form, record, want, entries]: [&str; 4]) {
    let (got, count) = number_and(record::entries(number(form), &bytes(record)));
    assert_eq!((got, count.unwrap_or(0)), (number(want), number(entries)));
}

fn entry_line([form, record, place, want, start, length, request, count, bits]: [&str; 9]) {
    let (form, record, place) = (number(form), bytes(record), number(place));
    let (got, entry) = number_and(record::entry(form, &record, place));
    assert_eq!(got, number::<u8>(want));
    let Some(entry) = entry else { return };
    assert_eq!((entry.start, entry.length), (number(start), number(length)));
    assert_eq!((entry.request, entry.count), (number(request), number(count)));
    assert_eq!(entry.bits.map(u32::from), known(number(bits)));
    assert_eq!(record::frame(form, &record, place), Ok(&record[entry.range()]));
}

/// Whether a call can be made of the line: in C a frame may have another length than the one named.
fn add_line([buffer, used, frame, request, count, bits, length, want, longer, left]: [&str; 10]) -> bool {
    let (mut lent, frame) = (bytes(buffer), bytes(frame));
    if frame.len() != number::<usize>(length) {
        assert_eq!(want, "1");
        return false;
    }
    let bits = known(number(bits));
    let answer = record::add(&mut lent, number(used), &frame, number(request), number(count), bits);
    let (got, used) = number_and(answer);
    assert_eq!((got, used.unwrap_or(0), lent), (number(want), number(longer), after(left, buffer)));
    true
}

type Move = fn(&[u8], &mut [u8]) -> Result<usize, Refusal>;

fn move_line(to_form: Move, [record, out, want, used, left]: [&str; 5]) {
    let mut lent = bytes(out);
    let (got, length) = number_and(to_form(&bytes(record), &mut lent));
    assert_eq!((got, length.unwrap_or(0), lent), (number(want), number(used), after(left, out)));
}

/// The program's listing, made of what the crate reads: of form 2 if the bytes are that, else of form 1.
fn list_line([record, text]: [&str; 2]) {
    let record = bytes(record);
    let form = if record::entries(2, &record).is_ok() { 2 } else { 1 };
    let listing = match record::entries(form, &record) {
        Err(_) => String::from("damaged\n"),
        Ok(entries) => (0..entries as usize).fold(format!("records {entries}\n"), |lines, place| {
            let entry = record::entry(form, &record, place).unwrap();
            lines + &format!("{place} {} {} {}\n", entry.length, entry.request, entry.count)
        }),
    };
    assert_eq!(listing.as_bytes(), bytes(text));
}

fn fields<const N: usize>(line: &[String]) -> [&str; N] {
    let fields: Vec<&str> = line[1..].iter().map(String::as_str).collect();
    fields.try_into().expect("as many fields as the call has")
}

#[test]
fn form2_list() {
    const CALLS: [&str; 7] = ["new", "entries", "entry", "add", "to2", "to1", "list"];
    let (lines, mut counts, mut left_out) = (list("record/form2.txt"), [0; 7], 0);
    for line in &lines {
        let call = CALLS.iter().position(|&call| call == line[0]).expect("a call of the record");
        counts[call] += 1;
        match call {
            0 => new_line(fields(line)),
            1 => entries_line(fields(line)),
            2 => entry_line(fields(line)),
            3 => left_out += usize::from(!add_line(fields(line))),
            4 => move_line(record::to_form_2, fields(line)),
            5 => move_line(record::to_form_1, fields(line)),
            _ => list_line(fields(line)),
        }
    }
    assert_eq!((counts, left_out), ([11, 44, 14, 23, 12, 13, 13], 1));
}
