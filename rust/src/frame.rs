//! Reading a frame (clause 5.4) and writing one (clause 5.3.14): 20 to 400 bytes at 8, 16, 24, 32 or 48 kHz, of 2.5, 5, 7.5
//! or 10 ms. The duration is in quarter milliseconds: 10, 20, 30 or 40.

use crate::Refusal;
use crate::ffi;

/// The fields of a frame, by the clause's names, as [`read_frame`] gives and [`write_frame`] takes them; spectrum and residual
/// bits are in the lent slices. Reading gives what is in these ranges, and writing refuses what is not.
///
/// The default is 0 everywhere and no pitch: it still wants a last line.
#[derive(Clone, Copy, Debug, Default, PartialEq, Eq, Hash)]
pub struct Frame {
    /// The bandwidth, 0 to the rate's index: 0 at 8 kHz, then 1, 2, 3, and 4 at 48 kHz.
    pub bandwidth: u8,
    /// Lines of the spectrum that are sent, an even number from 2 to all; from this one on all are 0.
    pub last_line: u16,
    /// Whether the lines' lowest bits are sent late: then there are no residual bits. It is read, and not written.
    pub lsb_mode: bool,
    /// The global gain's index.
    pub gain: u8,
    /// The two temporal noise shaping filters; the second is sent with bandwidth 3 or 4 only, and never at 2.5 ms.
    pub tns: [Tns; 2],
    /// The spectral shape.
    pub shape: Shape,
    /// The long term postfilter's pitch, where one is sent.
    pub pitch: Option<Pitch>,
    /// The noise level, 0 to 7.
    pub noise_level: u8,
    /// Entries of the residual slice. Read: those that were sent, the first ones. To be written: one for each line that is not
    /// 0.
    pub residual_bits: u16,
    /// Arithmetic symbols taken; writing does not look at it.
    pub symbols: u16,
}

/// A temporal noise shaping filter; one that is not sent is the default, 0 everywhere.
#[derive(Clone, Copy, Debug, Default, PartialEq, Eq, Hash)]
pub struct Tns {
    /// Whether the filter is sent.
    pub flag: bool,
    /// Its order, 1 to 8, at 2.5 and 5 ms 1 to 4; 0 where it is not sent.
    pub order: u8,
    /// Its coefficients' indices, 0 to 16; 0 from the order on.
    pub coefficients: [u8; 8],
}

/// The spectral shape: 38 bits.
#[derive(Clone, Copy, Debug, Default, PartialEq, Eq, Hash)]
pub struct Shape {
    /// The first five bits sent.
    pub low: u8,
    /// The second five bits sent.
    pub high: u8,
    /// The mode bit.
    pub mode: u8,
    /// The gain: 1 bit with mode bit 0, 2 bits with 1.
    pub gain: u8,
    /// The sign bit.
    pub sign: u8,
    /// The joint index: 25 bits and below 33,460,056 with mode bit 0, 24 bits and below 16,708,096 with 1.
    pub joint: u32,
}

/// The pitch of the long term postfilter.
#[derive(Clone, Copy, Debug, Default, PartialEq, Eq, Hash)]
pub struct Pitch {
    /// Whether the filter is active.
    pub filter_flag: bool,
    /// The pitch index, 9 bits.
    pub index: u16,
}

/// The lines of a frame of this rate and duration, the latter in quarter milliseconds: 80, 160, 240, 320 or 400 at 10 ms, and a
/// quarter, a half and three quarters of them at 2.5, 5 and 7.5 ms; `None` where the rate or the duration is out of range.
///
/// ```
/// assert_eq!(silberlaus::line_count(16, 40), Some(160));
/// assert_eq!(silberlaus::line_count(16, 10), Some(40));
/// assert_eq!(silberlaus::line_count(44, 40), None);
/// assert_eq!(silberlaus::line_count(16, 5), None);
/// ```
pub fn line_count(khz: u32, quarter_ms: u32) -> Option<usize> {
    match ffi::silberlaus_line_count(khz, quarter_ms) {
        0 => None,
        lines => Some(lines),
    }
}

/// Reads a frame into its fields, its spectrum and its residual bits.
///
/// The duration is in quarter milliseconds. `spectrum` and `residual` have exactly [`line_count`]`(khz, quarter_ms)` entries
/// each, and accepted, all of them are written: the spectrum's lines, -32,767 to 32,767, then 0; the residual bits, each 0 or 1,
/// then 0.
///
/// # Errors
///
/// [`Refusal::BadSetting`] the rate, the duration or the frame's length; [`Refusal::BadLength`] `spectrum` or `residual`;
/// [`Refusal::BitError`] with its cause.
///
/// ```
/// use silberlaus::{Cause, Refusal, read_frame};
///
/// let mut frame = [
///     0x4d, 0xff, 0xa1, 0x42, 0x80, 0xc8, 0x56, 0x83, 0xfa, 0xbb, 0x51, 0x38, 0x5e, 0x56, 0xd0, 0x40, 0x4e, 0xb2, 0x8c, 0x51,
/// ];
/// let (mut spectrum, mut residual) = ([0; 320], [0; 320]);
/// let fields = read_frame(32, 40, &frame, &mut spectrum, &mut residual)?;
/// assert_eq!((fields.bandwidth, fields.last_line, fields.gain, fields.symbols), (1, 42, 81, 23));
/// assert_eq!(fields.pitch.map(|pitch| pitch.index), Some(389));
/// assert_eq!(spectrum[..8], [-2, 3, 2, 3, 0, -6, 4, 0]);
///
/// frame[18] |= 3; // the two highest bits of the last pair
/// let refusal = read_frame(32, 40, &frame, &mut spectrum, &mut residual).unwrap_err();
/// assert_eq!(refusal, Refusal::BitError(Cause::LastLine));
/// assert_eq!(read_frame(32, 20, &frame, &mut spectrum, &mut residual), Err(Refusal::BadLength));
/// # Ok::<(), Refusal>(())
/// ```
pub fn read_frame(
    khz: u32,
    quarter_ms: u32,
    frame: &[u8],
    spectrum: &mut [i32],
    residual: &mut [u8],
) -> Result<Frame, Refusal> {
    Frame::of(ffi::read_frame(khz, quarter_ms, frame, spectrum, residual))
}

/// Writes a frame of the slice's length, 20 to 400 bytes, from its fields, its spectrum and its residual bits, and gives how
/// many of these were sent.
///
/// The duration is in quarter milliseconds. `spectrum` and `residual` have exactly [`line_count`]`(khz, quarter_ms)` entries
/// each: the lines, -32,767 to 32,767, and 0 from the last line on; a residual bit, 0 or 1, for each line that is not 0, then
/// 0. `fields.residual_bits` says how many these are; a frame that was read may say fewer, where not all of them were sent.
///
/// Accepted, all of the frame is written, and [`read_frame`] gives the fields and the lines back. The residual bits sent are
/// the first ones, as many as there is room for behind the rest; the others are read as 0, and the `residual_bits` that are
/// read do not count them.
///
/// # Errors
///
/// [`Refusal::BadSetting`] the rate, the duration, the frame's length, or a field out of its range (see [`Frame`]), LSB mode
/// too; [`Refusal::BadLength`] `spectrum` or `residual`; [`Refusal::BadSetting`] a line out of its range, or not 0 at or past
/// the last line, `residual_bits` other than the number of lines that are not 0, an entry of `residual` above 1, or one past
/// `residual_bits` that is not 0; [`Refusal::FrameTooSmall`] the rest without any residual bit needs more bits than the frame
/// has.
///
/// A frame's fields are written, protected, repaired and read:
///
/// ```
/// use silberlaus::{Frame, Pitch, Refusal, Shape, Tns, protect, read_frame, unprotect, write_frame};
///
/// let (mut spectrum, mut residual) = ([0; 160], [0; 160]);
/// spectrum[..6].copy_from_slice(&[2, -1, 0, 5, 0, -1]);
/// residual[..4].copy_from_slice(&[1, 0, 1, 1]); // four lines are not 0
/// let fields = Frame {
///     bandwidth: 1,
///     last_line: 6,
///     gain: 200,
///     tns: [Tns { flag: true, order: 2, coefficients: [8, 9, 0, 0, 0, 0, 0, 0] }, Tns::default()],
///     shape: Shape { low: 3, high: 17, gain: 1, joint: 1_000_000, ..Shape::default() },
///     pitch: Some(Pitch { filter_flag: true, index: 389 }),
///     noise_level: 5,
///     residual_bits: 4,
///     ..Frame::default()
/// };
/// let (mut frame, mut slot) = ([0; 53], [0; 80]);
/// assert_eq!(write_frame(16, 40, &fields, &spectrum, &residual, &mut frame)?, 4);
/// protect(3, 1, &frame, &mut slot)?;
///
/// slot[9] ^= 0x40; // the air
///
/// let mut heard = [0; 53];
/// assert_eq!(unprotect(3, &slot, &mut heard)?.semi_octets, 1);
/// let (mut lines, mut bits) = ([0; 160], [0; 160]);
/// let got = read_frame(16, 40, &heard, &mut lines, &mut bits)?;
/// assert_eq!(got, Frame { symbols: 7, ..fields });
/// assert_eq!((lines, bits), (spectrum, residual));
///
/// // at 5 ms there are half as many lines
/// assert_eq!(write_frame(16, 20, &fields, &spectrum, &residual, &mut frame), Err(Refusal::BadLength));
/// spectrum[..4].fill(32_767);
/// let fields = Frame { residual_bits: 5, ..fields };
/// assert_eq!(write_frame(16, 40, &fields, &spectrum, &[0; 160], &mut frame[..20]), Err(Refusal::FrameTooSmall));
/// assert_eq!(frame, heard, "a refusal leaves the frame as it was");
/// # Ok::<(), Refusal>(())
/// ```
pub fn write_frame(
    khz: u32,
    quarter_ms: u32,
    fields: &Frame,
    spectrum: &[i32],
    residual: &[u8],
    frame: &mut [u8],
) -> Result<u16, Refusal> {
    let answer = ffi::write_frame(khz, quarter_ms, fields.lent(), spectrum, residual, frame);
    Refusal::of(answer.number, 0)?;
    Ok(answer.residual_bits)
}

impl Frame {
    pub(crate) fn of(answer: ffi::Frame) -> Result<Frame, Refusal> {
        Refusal::of(answer.number, answer.cause)?;
        Ok(Frame {
            bandwidth: answer.bandwidth,
            last_line: answer.last_line,
            lsb_mode: answer.lsb_mode == 1,
            gain: answer.gain,
            tns: [
                Tns {
                    flag: answer.tns_flag_0 == 1,
                    order: answer.tns_order_0,
                    coefficients: answer.tns_coefficients_0,
                },
                Tns {
                    flag: answer.tns_flag_1 == 1,
                    order: answer.tns_order_1,
                    coefficients: answer.tns_coefficients_1,
                },
            ],
            shape: Shape {
                low: answer.shape_low,
                high: answer.shape_high,
                mode: answer.shape_mode,
                gain: answer.shape_gain,
                sign: answer.shape_sign,
                joint: answer.shape_joint,
            },
            pitch: (answer.pitch_present == 1)
                .then_some(Pitch { filter_flag: answer.filter_flag == 1, index: answer.pitch_index }),
            noise_level: answer.noise_level,
            residual_bits: answer.residual_bits,
            symbols: answer.symbols,
        })
    }

    /// The fields as they are lent to be written: of an accepted frame what [`Frame::of`] was given.
    fn lent(&self) -> ffi::Frame {
        let pitch = self.pitch.unwrap_or_default();
        ffi::Frame {
            number: 0,
            cause: 0,
            bandwidth: self.bandwidth,
            lsb_mode: self.lsb_mode.into(),
            gain: self.gain,
            tns_flag_0: self.tns[0].flag.into(),
            tns_flag_1: self.tns[1].flag.into(),
            pitch_present: self.pitch.is_some().into(),
            shape_low: self.shape.low,
            shape_high: self.shape.high,
            shape_mode: self.shape.mode,
            shape_gain: self.shape.gain,
            shape_sign: self.shape.sign,
            filter_flag: pitch.filter_flag.into(),
            noise_level: self.noise_level,
            tns_order_0: self.tns[0].order,
            tns_order_1: self.tns[1].order,
            tns_coefficients_0: self.tns[0].coefficients,
            tns_coefficients_1: self.tns[1].coefficients,
            last_line: self.last_line,
            pitch_index: pitch.index,
            residual_bits: self.residual_bits,
            symbols: self.symbols,
            shape_joint: self.shape.joint,
        }
    }
}
