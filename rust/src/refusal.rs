//! Why a call was refused: document 01's numbers, and the causes of a bit error.

use core::error::Error;
use core::fmt;

/// Why a call was refused. Each function says which of these it gives, the one that is checked first named first.
///
/// ```
/// use silberlaus::{Refusal, protect};
///
/// let refusal = protect(5, 0, &[0; 20], &mut [0; 40]).unwrap_err();
/// assert_eq!(refusal, Refusal::BadSetting);
/// assert_eq!(refusal.number(), 1);
/// assert_eq!(refusal.to_string(), "1: a setting is out of range");
/// ```
#[derive(Clone, Copy, Debug, PartialEq, Eq, Hash)]
#[non_exhaustive]
pub enum Refusal {
    /// 1: a setting is out of range; for the record also its used length, its entry or a place; for a frame to write also a
    /// field, a line or a residual bit.
    BadSetting,
    /// 2: a slice has not the exact length named.
    BadLength,
    /// 3: some code word has no valid word within mode - 1 semi-octets.
    BeyondRepair,
    /// 4: every word was corrected, and no frame and request make that slot.
    Foreign,
    /// 5: a bit error condition holds in the frame.
    BitError(Cause),
    /// 6: the record, or the buffer that it is in or moved into, has no room.
    NoRoom,
    /// 7: the bytes are no record of the form.
    NotARecord,
    /// 8: the fields and the lines need more bits than the frame has.
    FrameTooSmall,
}

/// Which bit error condition holds in a frame: the first in reading order.
///
/// ```
/// use silberlaus::{Cause, Refusal};
///
/// assert_eq!(Cause::LastLine as u8, 2);
/// assert_eq!(Refusal::BitError(Cause::LastLine).to_string(), "5: bit error, cause 2: the last line is above the number of lines");
/// ```
#[derive(Clone, Copy, Debug, PartialEq, Eq, Hash)]
#[repr(u8)]
#[non_exhaustive]
pub enum Cause {
    /// The bandwidth is above the rate's.
    Bandwidth = 1,
    /// The last line is above the number of lines of the rate and the duration.
    LastLine = 2,
    /// The shape's joint index is too large.
    JointIndex = 3,
    /// The arithmetic value is at or above the scaled range.
    Arithmetic = 4,
    /// Fourteen escapes in a pair.
    Escapes = 5,
    /// The two streams cross, or a byte outside the frame is wanted.
    Crossed = 6,
    /// Fewer than no bits are left for the residual.
    NoBits = 7,
    /// A TNS order is above 4 at 2.5 or 5 ms; at 7.5 and 10 ms it cannot arise.
    TnsOrder = 8,
}

impl Refusal {
    /// Document 01's number.
    ///
    /// ```
    /// assert_eq!(silberlaus::Refusal::NotARecord.number(), 7);
    /// ```
    pub const fn number(self) -> u8 {
        match self {
            Refusal::BadSetting => 1,
            Refusal::BadLength => 2,
            Refusal::BeyondRepair => 3,
            Refusal::Foreign => 4,
            Refusal::BitError(_) => 5,
            Refusal::NoRoom => 6,
            Refusal::NotARecord => 7,
            Refusal::FrameTooSmall => 8,
        }
    }

    /// Nothing for 0, and the refusal of any other number. The archive's proved promises give no others than these.
    pub(crate) fn of(number: u8, cause: u8) -> Result<(), Refusal> {
        match number {
            0 => Ok(()),
            1 => Err(Refusal::BadSetting),
            2 => Err(Refusal::BadLength),
            3 => Err(Refusal::BeyondRepair),
            4 => Err(Refusal::Foreign),
            5 => Err(Refusal::BitError(Cause::of(cause))),
            6 => Err(Refusal::NoRoom),
            7 => Err(Refusal::NotARecord),
            8 => Err(Refusal::FrameTooSmall),
            _ => unreachable!("a number from 0 to 8"),
        }
    }
}

impl Cause {
    fn of(cause: u8) -> Cause {
        match cause {
            1 => Cause::Bandwidth,
            2 => Cause::LastLine,
            3 => Cause::JointIndex,
            4 => Cause::Arithmetic,
            5 => Cause::Escapes,
            6 => Cause::Crossed,
            7 => Cause::NoBits,
            8 => Cause::TnsOrder,
            _ => unreachable!("a cause from 1 to 8"),
        }
    }
}

impl fmt::Display for Refusal {
    fn fmt(&self, f: &mut fmt::Formatter<'_>) -> fmt::Result {
        match self {
            Refusal::BadSetting => f.write_str("1: a setting is out of range"),
            Refusal::BadLength => f.write_str("2: a buffer has not the exact length"),
            Refusal::BeyondRepair => f.write_str("3: a code word is beyond repair"),
            Refusal::Foreign => f.write_str("4: no frame and request make this slot"),
            Refusal::BitError(cause) => write!(f, "5: bit error, cause {}: {cause}", *cause as u8),
            Refusal::NoRoom => f.write_str("6: the record has no room"),
            Refusal::NotARecord => f.write_str("7: the bytes are no record"),
            Refusal::FrameTooSmall => f.write_str("8: the frame is too small"),
        }
    }
}

impl fmt::Display for Cause {
    fn fmt(&self, f: &mut fmt::Formatter<'_>) -> fmt::Result {
        f.write_str(match self {
            Cause::Bandwidth => "the bandwidth is above the rate's",
            Cause::LastLine => "the last line is above the number of lines",
            Cause::JointIndex => "the joint index is too large",
            Cause::Arithmetic => "the arithmetic value is outside its range",
            Cause::Escapes => "fourteen escapes in a pair",
            Cause::Crossed => "the two streams cross, or a byte outside the frame is wanted",
            Cause::NoBits => "fewer than no bits are left for the residual",
            Cause::TnsOrder => "a TNS order is above 4",
        })
    }
}

impl Error for Refusal {}
