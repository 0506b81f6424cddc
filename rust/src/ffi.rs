//! The archive's functions and structs, as include/silberlaus.h has them, and the only `unsafe` of the crate. The archive
//! keeps to what it is lent and holds on to nothing: proved for all bytes and all settings. A call is safe where each
//! pointer is good for its length and no two buffers overlap, which slices bring with them.

#[cfg(test)]
mod tests;

#[repr(C)]
pub struct Unprotected {
    pub number: u8,
    pub request: u8,
    pub semi_octets: u16,
    pub bits: u16,
}

#[repr(C)]
pub struct Frame {
    pub number: u8,
    pub cause: u8,
    pub bandwidth: u8,
    pub lsb_mode: u8,
    pub gain: u8,
    pub tns_flag_0: u8,
    pub tns_flag_1: u8,
    pub pitch_present: u8,
    pub shape_low: u8,
    pub shape_high: u8,
    pub shape_mode: u8,
    pub shape_gain: u8,
    pub shape_sign: u8,
    pub filter_flag: u8,
    pub noise_level: u8,
    pub tns_order_0: u8,
    pub tns_order_1: u8,
    pub tns_coefficients_0: [u8; 8],
    pub tns_coefficients_1: [u8; 8],
    pub last_line: u16,
    pub pitch_index: u16,
    pub residual_bits: u16,
    pub symbols: u16,
    pub shape_joint: u32,
}

#[repr(C)]
pub struct Written {
    pub number: u8,
    pub residual_bits: u16,
}

#[repr(C)]
pub struct Added {
    pub number: u8,
    pub used: u32,
}

#[repr(C)]
pub struct Entries {
    pub number: u8,
    pub entries: u32,
}

#[repr(C)]
pub struct Entry {
    pub number: u8,
    pub request: u8,
    pub count: u8,
    pub length: u16,
    pub bits: u16,
    pub start: u32,
}

#[cfg_attr(test, allow(clashing_extern_declarations, reason = "the tests declare them again, to see the registers"))]
unsafe extern "C" {
    pub safe fn silberlaus_frame_size(slot_size: usize, mode: u32) -> usize;
    fn silberlaus_protect(
        slot_size: usize,
        mode: u32,
        request: u32,
        frame: *const u8,
        frame_len: usize,
        slot: *mut u8,
        slot_len: usize,
    ) -> u8;
    fn silberlaus_unprotect(
        slot_size: usize,
        mode: u32,
        slot: *const u8,
        slot_len: usize,
        frame: *mut u8,
        frame_len: usize,
    ) -> Unprotected;
    fn silberlaus_unprotect_each(
        slot_size: usize,
        mode: u32,
        slots: *const u8,
        slots_len: usize,
        numbers: *mut u8,
        numbers_len: usize,
        requests: *mut u8,
        requests_len: usize,
        semi_octets: *mut u16,
        semi_octets_len: usize,
        bits: *mut u16,
        bits_len: usize,
        frames: *mut u8,
        frames_len: usize,
    ) -> u8;
    pub safe fn silberlaus_line_count(khz: u32, quarter_ms: u32) -> usize;
    fn silberlaus_read_frame(
        khz: u32,
        quarter_ms: u32,
        frame: *const u8,
        frame_len: usize,
        spectrum: *mut i32,
        spectrum_len: usize,
        residual: *mut u8,
        residual_len: usize,
    ) -> Frame;
    fn silberlaus_write_frame(
        khz: u32,
        quarter_ms: u32,
        fields: Frame,
        spectrum: *const i32,
        spectrum_len: usize,
        residual: *const u8,
        residual_len: usize,
        frame: *mut u8,
        frame_len: usize,
    ) -> Written;
    fn silberlaus_record_new(form: u32, buffer: *mut u8, capacity: usize) -> u8;
    fn silberlaus_record_entries(form: u32, record: *const u8, used: usize) -> Entries;
    fn silberlaus_record_entry(form: u32, record: *const u8, used: usize, place: usize) -> Entry;
    fn silberlaus_record_add(
        buffer: *mut u8,
        capacity: usize,
        used: usize,
        frame: *const u8,
        frame_len: usize,
        request: u32,
        count: u32,
        bits: u32,
        length: u32,
    ) -> Added;
    fn silberlaus_record_to_form_2(record: *const u8, used: usize, out: *mut u8, capacity: usize) -> Added;
    fn silberlaus_record_to_form_1(record: *const u8, used: usize, out: *mut u8, capacity: usize) -> Added;
    fn silberlaus_read_entry(
        form: u32,
        record: *const u8,
        used: usize,
        place: usize,
        khz: u32,
        quarter_ms: u32,
        spectrum: *mut i32,
        spectrum_len: usize,
        residual: *mut u8,
        residual_len: usize,
    ) -> Frame;
}

pub fn protect(slot_size: usize, mode: u32, request: u32, frame: &[u8], slot: &mut [u8]) -> u8 {
    // SAFETY: frame is good for reading, slot for writing, each for its length, and an exclusive slice overlaps no other.
    unsafe { silberlaus_protect(slot_size, mode, request, frame.as_ptr(), frame.len(), slot.as_mut_ptr(), slot.len()) }
}

pub fn unprotect(slot_size: usize, mode: u32, slot: &[u8], frame: &mut [u8]) -> Unprotected {
    // SAFETY: slot is good for reading, frame for writing, each for its length, and an exclusive slice overlaps no other.
    unsafe { silberlaus_unprotect(slot_size, mode, slot.as_ptr(), slot.len(), frame.as_mut_ptr(), frame.len()) }
}

#[allow(clippy::too_many_arguments, reason = "as many as C has, but for the lengths")]
pub fn unprotect_each(
    slot_size: usize,
    mode: u32,
    slots: &[u8],
    numbers: &mut [u8],
    requests: &mut [u8],
    semi_octets: &mut [u16],
    bits: &mut [u16],
    frames: &mut [u8],
) -> u8 {
    // SAFETY: slots is good for reading, the others for writing, each for its length; exclusive slices overlap no other.
    unsafe {
        silberlaus_unprotect_each(
            slot_size,
            mode,
            slots.as_ptr(),
            slots.len(),
            numbers.as_mut_ptr(),
            numbers.len(),
            requests.as_mut_ptr(),
            requests.len(),
            semi_octets.as_mut_ptr(),
            semi_octets.len(),
            bits.as_mut_ptr(),
            bits.len(),
            frames.as_mut_ptr(),
            frames.len(),
        )
    }
}

pub fn read_frame(khz: u32, quarter_ms: u32, frame: &[u8], spectrum: &mut [i32], residual: &mut [u8]) -> Frame {
    let (lines, bits) = (spectrum.len(), residual.len());
    let (at, to, rest) = (frame.as_ptr(), spectrum.as_mut_ptr(), residual.as_mut_ptr());
    // SAFETY: frame is good for reading, the others for writing, each for its length; exclusive slices overlap no other.
    unsafe { silberlaus_read_frame(khz, quarter_ms, at, frame.len(), to, lines, rest, bits) }
}

pub fn write_frame(
    khz: u32,
    quarter_ms: u32,
    fields: Frame,
    spectrum: &[i32],
    residual: &[u8],
    frame: &mut [u8],
) -> Written {
    let (lines, bits, length) = (spectrum.len(), residual.len(), frame.len());
    let (from, rest, to) = (spectrum.as_ptr(), residual.as_ptr(), frame.as_mut_ptr());
    // SAFETY: frame is good for writing, the others for reading, each for its length; an exclusive slice overlaps no other.
    unsafe { silberlaus_write_frame(khz, quarter_ms, fields, from, lines, rest, bits, to, length) }
}

pub fn record_new(form: u32, buffer: &mut [u8]) -> u8 {
    // SAFETY: buffer is good for writing for its length.
    unsafe { silberlaus_record_new(form, buffer.as_mut_ptr(), buffer.len()) }
}

pub fn record_entries(form: u32, record: &[u8]) -> Entries {
    // SAFETY: record is good for reading for its length.
    unsafe { silberlaus_record_entries(form, record.as_ptr(), record.len()) }
}

pub fn record_entry(form: u32, record: &[u8], place: usize) -> Entry {
    // SAFETY: record is good for reading for its length.
    unsafe { silberlaus_record_entry(form, record.as_ptr(), record.len(), place) }
}

pub fn record_add(buffer: &mut [u8], used: usize, frame: &[u8], request: u32, count: u32, bits: u32) -> Added {
    // a frame too long for 32 bits is refused as any other that is too long
    let length = u32::try_from(frame.len()).unwrap_or(u32::MAX);
    let (room, bytes) = (buffer.len(), buffer.as_mut_ptr());
    // SAFETY: buffer is good for writing, frame for reading, each for its length, and an exclusive slice overlaps no other.
    unsafe { silberlaus_record_add(bytes, room, used, frame.as_ptr(), frame.len(), request, count, bits, length) }
}

pub fn record_to_form_2(record: &[u8], out: &mut [u8]) -> Added {
    // SAFETY: record is good for reading, out for writing, each for its length, and an exclusive slice overlaps no other.
    unsafe { silberlaus_record_to_form_2(record.as_ptr(), record.len(), out.as_mut_ptr(), out.len()) }
}

pub fn record_to_form_1(record: &[u8], out: &mut [u8]) -> Added {
    // SAFETY: record is good for reading, out for writing, each for its length, and an exclusive slice overlaps no other.
    unsafe { silberlaus_record_to_form_1(record.as_ptr(), record.len(), out.as_mut_ptr(), out.len()) }
}

pub fn read_entry(
    form: u32,
    record: &[u8],
    place: usize,
    khz: u32,
    quarter_ms: u32,
    spectrum: &mut [i32],
    residual: &mut [u8],
) -> Frame {
    let (lines, bits) = (spectrum.len(), residual.len());
    let (at, to, rest) = (record.as_ptr(), spectrum.as_mut_ptr(), residual.as_mut_ptr());
    // SAFETY: record is good for reading, the others for writing, each for its length; exclusive slices overlap no other.
    unsafe { silberlaus_read_entry(form, at, record.len(), place, khz, quarter_ms, to, lines, rest, bits) }
}
