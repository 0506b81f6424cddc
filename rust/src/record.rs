//! The session record: entries of a frame, its request, its count and its bits, the oldest at place 0; at most 65,536 bytes.
//!
//! A record is the first `used` bytes of a buffer. [`new`], [`add`] and the two moves say how many that are; the functions
//! that read one take just those bytes.
//!
//! It has one of two forms, 1 or 2, which is a setting as any other: the caller says which. Form 2 keeps the bits, form 1 does
//! not, and its entries are read with unknown ones, `None`. Entries are added in form 2 only; [`to_form_1`] and [`to_form_2`]
//! write a record in the other form. No bytes are records of both forms.
//!
//! ```
//! use silberlaus::record;
//!
//! let mut night = [0; 4096];
//! let mut used = record::new(2, &mut night)?;
//! used = record::add(&mut night, used, &[1; 20], 0, 0, Some(0))?;
//! used = record::add(&mut night, used, &[2; 30], 3, 7, Some(16))?;
//! assert_eq!(record::entries(2, &night[..used])?, 2);
//! assert_eq!(record::entry(2, &night[..used], 1)?.bits, Some(16));
//! assert_eq!(record::frame(2, &night[..used], 0)?, [1; 20]);
//!
//! let mut moved = [0; 4096];
//! let used = record::to_form_1(&night[..used], &mut moved)?;
//! assert_eq!(record::entry(1, &moved[..used], 1)?.bits, None);
//! # Ok::<(), silberlaus::Refusal>(())
//! ```

use core::ops::Range;

use crate::ffi;
use crate::{Frame, Refusal};

/// The most bytes of a record of either form.
pub const MAX: usize = 65_536;

/// The bytes of a form 1 record with no entries.
pub const MIN_1: usize = 4;

/// The bytes of a form 2 record with no entries.
pub const MIN_2: usize = 5;

/// The bytes of a form 1 entry beside its frame.
pub const ENTRY_OVERHEAD_1: usize = 4;

/// The bytes of a form 2 entry beside its frame.
pub const ENTRY_OVERHEAD_2: usize = 6;

/// The most entries of a form 1 record: frames of 20 bytes in a record of [`MAX`].
pub const ENTRIES_MAX_1: u32 = 2_730;

/// The most entries of a form 2 record.
pub const ENTRIES_MAX_2: u32 = 2_520;

/// The most bits of an entry: 4 in each of 162 semi-octets.
pub const BITS_MAX: u16 = 648;

/// Unknown bits, as the archive has them.
const UNKNOWN: u16 = 65_535;

/// An entry's fields, and where its frame stands in the record.
#[derive(Clone, Copy, Debug, PartialEq, Eq, Hash)]
#[non_exhaustive]
pub struct Entry {
    /// The request that came with the frame, 0 to 3.
    pub request: u8,
    /// The semi-octets that were repaired, 0 to 162.
    pub count: u8,
    /// The bits that were repaired, 1 to 4 for each of these; `None` where they are not known, as in every entry of form 1.
    pub bits: Option<u16>,
    /// The frame's bytes, 20 to 400.
    pub length: u16,
    /// The frame's first byte in the record.
    pub start: u32,
}

impl Entry {
    /// The part of the record that is the frame.
    ///
    /// ```
    /// use silberlaus::record;
    /// # let mut night = [0; 64];
    /// # let used = record::new(2, &mut night)?;
    /// # let used = record::add(&mut night, used, &[1; 20], 0, 0, None)?;
    /// assert_eq!(record::entry(2, &night[..used], 0)?.range(), 0..20);
    /// # Ok::<(), silberlaus::Refusal>(())
    /// ```
    pub const fn range(self) -> Range<usize> {
        let start = self.start as usize;
        start..start + self.length as usize
    }
}

/// Writes a record of no entries into the buffer's first bytes, and gives its length: 4 in form 1, 5 in form 2. The rest
/// stays.
///
/// # Errors
///
/// [`Refusal::BadSetting`] the form; [`Refusal::NoRoom`] the buffer has fewer bytes.
///
/// ```
/// use silberlaus::{Refusal, record};
///
/// let mut buffer = [9; 6];
/// assert_eq!(record::new(1, &mut buffer), Ok(4));
/// assert_eq!(buffer, [0, 0, 0, 0, 9, 9]);
/// assert_eq!(record::new(2, &mut buffer), Ok(5));
/// assert_eq!(buffer, [0, 0, 0, 0, 2, 9]);
/// assert_eq!(record::new(2, &mut buffer[..4]), Err(Refusal::NoRoom));
/// assert_eq!(record::new(3, &mut buffer[..4]), Err(Refusal::BadSetting));
/// ```
pub fn new(form: u32, buffer: &mut [u8]) -> Result<usize, Refusal> {
    Refusal::of(ffi::record_new(form, buffer), 0)?;
    Ok(if form == 1 { MIN_1 } else { MIN_2 })
}

/// The number of entries.
///
/// # Errors
///
/// [`Refusal::BadSetting`] the form; [`Refusal::NotARecord`].
///
/// ```
/// use silberlaus::{Refusal, record};
///
/// assert_eq!(record::entries(1, &[0; 4]), Ok(0));
/// assert_eq!(record::entries(2, &[0, 0, 0, 0, 2]), Ok(0));
/// assert_eq!(record::entries(2, &[0; 4]), Err(Refusal::NotARecord));
/// ```
pub fn entries(form: u32, record: &[u8]) -> Result<u32, Refusal> {
    let answer = ffi::record_entries(form, record);
    Refusal::of(answer.number, 0)?;
    Ok(answer.entries)
}

/// The entry at a place, the oldest at 0.
///
/// # Errors
///
/// [`Refusal::BadSetting`] the form; [`Refusal::NotARecord`]; [`Refusal::BadSetting`] the place is not below the number of
/// entries.
///
/// ```
/// use silberlaus::{Refusal, record};
///
/// let mut night = [0; 64];
/// let used = record::new(2, &mut night)?;
/// let used = record::add(&mut night, used, &[1; 20], 2, 5, Some(11))?;
/// let entry = record::entry(2, &night[..used], 0)?;
/// assert_eq!((entry.request, entry.count, entry.bits, entry.length, entry.start), (2, 5, Some(11), 20, 0));
/// assert_eq!(record::entry(2, &night[..used], 1), Err(Refusal::BadSetting));
/// # Ok::<(), Refusal>(())
/// ```
pub fn entry(form: u32, record: &[u8], place: usize) -> Result<Entry, Refusal> {
    let answer = ffi::record_entry(form, record, place);
    Refusal::of(answer.number, 0)?;
    let bits = if answer.bits == UNKNOWN { None } else { Some(answer.bits) };
    Ok(Entry { request: answer.request, count: answer.count, bits, length: answer.length, start: answer.start })
}

/// The frame of the entry at a place: a part of the record, not copied.
///
/// # Errors
///
/// As [`entry`].
///
/// ```
/// use silberlaus::record;
///
/// let mut night = [0; 64];
/// let used = record::new(2, &mut night)?;
/// let used = record::add(&mut night, used, &[7; 20], 0, 0, Some(0))?;
/// assert_eq!(record::frame(2, &night[..used], 0)?, [7; 20]);
/// # Ok::<(), silberlaus::Refusal>(())
/// ```
pub fn frame(form: u32, record: &[u8], place: usize) -> Result<&[u8], Refusal> {
    Ok(&record[entry(form, record, place)?.range()])
}

/// Adds an entry to the form 2 record in the first `used` bytes of the buffer, and gives the new used length.
///
/// The frame has 20 to 400 bytes; the request is 0 to 3; the count, 0 to 162, is the `semi_octets` of unprotecting, and the
/// bits, count to 4 x count, are its `bits`; `None` where they are not known.
///
/// # Errors
///
/// [`Refusal::BadSetting`] `used` above the buffer's length or above 65,536, or the frame's length, the request, the count or
/// the bits out of range; [`Refusal::NotARecord`] the first `used` bytes are no record of form 2, be they one of form 1;
/// [`Refusal::NoRoom`] used + frame + 6 exceeds the buffer's length or 65,536. On each keep the old used length.
///
/// ```
/// use silberlaus::{Refusal, record};
///
/// let mut night = [0; 32];
/// let used = record::new(2, &mut night)?;
/// let used = record::add(&mut night, used, &[1; 20], 2, 5, Some(11))?;
/// assert_eq!(used, 31);
/// assert_eq!(record::add(&mut night, used, &[1; 20], 2, 5, Some(21)), Err(Refusal::BadSetting));
/// assert_eq!(record::add(&mut night, used, &[1; 20], 2, 5, None), Err(Refusal::NoRoom));
/// # Ok::<(), Refusal>(())
/// ```
pub fn add(
    buffer: &mut [u8],
    used: usize,
    frame: &[u8],
    request: u32,
    count: u32,
    bits: Option<u32>,
) -> Result<usize, Refusal> {
    // so many bits are refused as any others out of range, and not taken for unknown ones
    let bits = match bits {
        None => UNKNOWN.into(),
        Some(bits) if bits == UNKNOWN.into() => u32::MAX,
        Some(bits) => bits,
    };
    let answer = ffi::record_add(buffer, used, frame, request, count, bits);
    Refusal::of(answer.number, 0)?;
    Ok(answer.used as usize)
}

/// Writes a record of form 1 as one of form 2 into the first bytes of `out`: the same entries, their bits unknown. Gives its
/// length, record + 2 x entries + 1. The rest of `out` stays.
///
/// # Errors
///
/// [`Refusal::NotARecord`]; [`Refusal::NoRoom`] the moved record exceeds `out` or 65,536 bytes.
///
/// ```
/// use silberlaus::{Refusal, record};
///
/// let mut out = [9; 6];
/// assert_eq!(record::to_form_2(&[0; 4], &mut out), Ok(5));
/// assert_eq!(out, [0, 0, 0, 0, 2, 9]);
/// assert_eq!(record::to_form_2(&[0; 4], &mut out[..4]), Err(Refusal::NoRoom));
/// assert_eq!(record::to_form_2(&[0, 0, 0, 0, 2], &mut out), Err(Refusal::NotARecord));
/// ```
pub fn to_form_2(record: &[u8], out: &mut [u8]) -> Result<usize, Refusal> {
    let answer = ffi::record_to_form_2(record, out);
    Refusal::of(answer.number, 0)?;
    Ok(answer.used as usize)
}

/// Writes a record of form 2 as one of form 1 into the first bytes of `out`: the same entries, their bits dropped. Gives its
/// length, record - 2 x entries - 1. The rest of `out` stays.
///
/// # Errors
///
/// [`Refusal::NotARecord`]; [`Refusal::NoRoom`] the moved record exceeds `out`.
///
/// ```
/// use silberlaus::{Refusal, record};
///
/// let mut out = [9; 5];
/// assert_eq!(record::to_form_1(&[0, 0, 0, 0, 2], &mut out), Ok(4));
/// assert_eq!(out, [0, 0, 0, 0, 9]);
/// assert_eq!(record::to_form_1(&[0, 0, 0, 0, 2], &mut out[..3]), Err(Refusal::NoRoom));
/// assert_eq!(record::to_form_1(&[0; 4], &mut out), Err(Refusal::NotARecord));
/// ```
pub fn to_form_1(record: &[u8], out: &mut [u8]) -> Result<usize, Refusal> {
    let answer = ffi::record_to_form_1(record, out);
    Refusal::of(answer.number, 0)?;
    Ok(answer.used as usize)
}

/// Reads the frame of the entry at a place where it stands in the record, as [`read_frame`](crate::read_frame) does.
///
/// # Errors
///
/// [`Refusal::BadSetting`] the form, the rate or the duration; [`Refusal::BadLength`] `spectrum` or `residual`;
/// [`Refusal::NotARecord`]; [`Refusal::BadSetting`] the place; [`Refusal::BitError`] with its cause.
///
/// ```
/// use silberlaus::record;
///
/// let frame = [
///     0x4d, 0xff, 0xa1, 0x42, 0x80, 0xc8, 0x56, 0x83, 0xfa, 0xbb, 0x51, 0x38, 0x5e, 0x56, 0xd0, 0x40, 0x4e, 0xb2, 0x8c, 0x51,
/// ];
/// let mut night = [0; 64];
/// let used = record::new(2, &mut night)?;
/// let used = record::add(&mut night, used, &frame, 0, 0, Some(0))?;
///
/// let (mut spectrum, mut residual) = ([0; 320], [0; 320]);
/// assert_eq!(record::read(2, &night[..used], 0, 32, 40, &mut spectrum, &mut residual)?.last_line, 42);
/// # Ok::<(), silberlaus::Refusal>(())
/// ```
pub fn read(
    form: u32,
    record: &[u8],
    place: usize,
    khz: u32,
    quarter_ms: u32,
    spectrum: &mut [i32],
    residual: &mut [u8],
) -> Result<Frame, Refusal> {
    Frame::of(ffi::read_entry(form, record, place, khz, quarter_ms, spectrum, residual))
}
