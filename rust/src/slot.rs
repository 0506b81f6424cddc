//! A slot of Annex A.1: 40 to 400 bytes, mode 2, 3 or 4, request (EPMR) 0 to 3. The slot's size is its slice's length; where
//! many slots stand in one slice it is named.

use crate::Refusal;
use crate::ffi;

/// What unprotecting found beside the frame.
#[derive(Clone, Copy, Debug, PartialEq, Eq, Hash)]
#[non_exhaustive]
pub struct Unprotected {
    /// The request, as sent.
    pub request: u8,
    /// In how many semi-octets the received slot differs from the one sent, 0 to 162.
    pub semi_octets: u16,
    /// In how many bits it differs: 1 to 4 for each of these semi-octets, so at most 648.
    pub bits: u16,
}

impl Unprotected {
    /// Whether the slot came as it was sent.
    ///
    /// ```
    /// # let mut slot = [0; 40];
    /// # silberlaus::protect(2, 0, &[1; 32], &mut slot)?;
    /// let mut frame = [0; 32];
    /// assert!(silberlaus::unprotect(2, &slot, &mut frame)?.is_clean());
    /// slot[0] ^= 1;
    /// assert!(!silberlaus::unprotect(2, &slot, &mut frame)?.is_clean());
    /// # Ok::<(), silberlaus::Refusal>(())
    /// ```
    pub const fn is_clean(self) -> bool {
        self.semi_octets == 0
    }
}

/// The bytes of a frame in a slot of this size; `None` where the size or the mode is out of range.
///
/// ```
/// assert_eq!(silberlaus::frame_size(400, 2), Some(343));
/// assert_eq!(silberlaus::frame_size(401, 2), None);
/// ```
pub fn frame_size(slot_size: usize, mode: u32) -> Option<usize> {
    match ffi::silberlaus_frame_size(slot_size, mode) {
        0 => None,
        bytes => Some(bytes),
    }
}

/// Protects a frame: fills the slot with Annex A's slot of the frame and the request.
///
/// The frame has exactly [`frame_size`]`(slot.len(), mode)` bytes.
///
/// # Errors
///
/// [`Refusal::BadSetting`] slot length, mode or request; [`Refusal::BadLength`] the frame.
///
/// ```
/// use silberlaus::{Refusal, protect};
///
/// let mut slot = [0; 40];
/// protect(4, 3, &[0x5a; 20], &mut slot)?;
/// assert_eq!(protect(4, 3, &[0x5a; 21], &mut slot), Err(Refusal::BadLength));
/// # Ok::<(), Refusal>(())
/// ```
pub fn protect(mode: u32, request: u32, frame: &[u8], slot: &mut [u8]) -> Result<(), Refusal> {
    Refusal::of(ffi::protect(slot.len(), mode, request, frame, slot), 0)
}

/// Unprotects a received slot: corrects every word to the only valid one within mode - 1 semi-octets, and fills `frame`
/// with the frame that was protected. With at most mode - 1 changes in each word it is the sender's.
///
/// The frame has exactly [`frame_size`]`(slot.len(), mode)` bytes.
///
/// # Errors
///
/// [`Refusal::BadSetting`] slot length or mode; [`Refusal::BadLength`] the frame; [`Refusal::BeyondRepair`];
/// [`Refusal::Foreign`].
///
/// ```
/// use silberlaus::{Refusal, protect, unprotect};
///
/// let sent = [0x5a; 20];
/// let mut slot = [0; 40];
/// protect(4, 3, &sent, &mut slot)?;
/// slot[0] ^= 0xf1; // two semi-octets, in two words: one bit and four
///
/// let mut frame = [0; 20];
/// let got = unprotect(4, &slot, &mut frame)?;
/// assert_eq!((frame, got.request, got.semi_octets, got.bits), (sent, 3, 2, 5));
///
/// assert_eq!(unprotect(4, &[0x11; 40], &mut frame), Err(Refusal::BeyondRepair));
/// assert_eq!(frame, sent, "a refusal leaves the frame as it was");
/// # Ok::<(), Refusal>(())
/// ```
pub fn unprotect(mode: u32, slot: &[u8], frame: &mut [u8]) -> Result<Unprotected, Refusal> {
    let answer = ffi::unprotect(slot.len(), mode, slot, frame);
    Refusal::of(answer.number, 0)?;
    Ok(Unprotected { request: answer.request, semi_octets: answer.semi_octets, bits: answer.bits })
}

/// Unprotects many received slots of one size and mode, each exactly as [`unprotect`] does. A slot costs less than there,
/// because the room is made once for all of them; the whole is linear in the number of slots.
///
/// `slots` has the slots one after the other; there may be none. `numbers`, `requests`, `semi_octets` and `bits` have exactly
/// one entry for each slot, and `frames` has exactly [`frame_size`]`(slot_size, mode)` bytes for each, in the order of the
/// slots. Entry i of these four is the answer for slot i; [`unprotected`] makes a `Result` of it. Where its number is 0 the slot's
/// place in `frames` is filled. Where it is 3 ([`Refusal::BeyondRepair`]) or 4 ([`Refusal::Foreign`]) its other three entries
/// are 0, its place in `frames` stays as it was, and the slots behind it are unprotected all the same.
///
/// # Errors
///
/// [`Refusal::BadSetting`] slot size or mode; [`Refusal::BadLength`] any of the six slices. Nothing is written then.
///
/// ```
/// use silberlaus::{Refusal, protect, unprotect_each, unprotected};
///
/// let sent = [0x5a; 20];
/// let mut slots = [0; 3 * 40];
/// protect(4, 3, &sent, &mut slots[..40])?; // clean
/// protect(4, 1, &sent, &mut slots[40..80])?;
/// slots[40] ^= 0xf1; // two semi-octets: one bit and four
/// slots[80..].fill(0x11); // hopeless
///
/// let (mut numbers, mut requests) = ([0; 3], [0; 3]);
/// let (mut semi_octets, mut bits) = ([0; 3], [0; 3]);
/// let mut frames = [0; 3 * 20];
/// unprotect_each(40, 4, &slots, &mut numbers, &mut requests, &mut semi_octets, &mut bits, &mut frames)?;
///
/// let answer = |i: usize| unprotected(numbers[i], requests[i], semi_octets[i], bits[i]);
/// assert!(answer(0)?.is_clean());
/// let damaged = answer(1)?;
/// assert_eq!((damaged.request, damaged.semi_octets, damaged.bits), (1, 2, 5));
/// assert_eq!(answer(2), Err(Refusal::BeyondRepair));
/// assert_eq!((&frames[..20], &frames[20..40]), (&sent[..], &sent[..]));
/// assert_eq!(frames[40..], [0; 20], "the place of a refused slot is as it was");
/// # Ok::<(), Refusal>(())
/// ```
#[allow(clippy::too_many_arguments, reason = "a slice for each answer of a slot, as C has it")]
pub fn unprotect_each(
    slot_size: usize,
    mode: u32,
    slots: &[u8],
    numbers: &mut [u8],
    requests: &mut [u8],
    semi_octets: &mut [u16],
    bits: &mut [u16],
    frames: &mut [u8],
) -> Result<(), Refusal> {
    Refusal::of(ffi::unprotect_each(slot_size, mode, slots, numbers, requests, semi_octets, bits, frames), 0)
}

/// The answer for a slot of [`unprotect_each`], from its four entries: what [`unprotect`] gives for that slot.
///
/// # Errors
///
/// [`Refusal::BadSetting`] a number that no slot gets there; [`Refusal::BeyondRepair`]; [`Refusal::Foreign`].
///
/// ```
/// use silberlaus::{Refusal, unprotected};
///
/// assert_eq!(unprotected(0, 3, 2, 5)?.bits, 5);
/// assert_eq!(unprotected(4, 0, 0, 0), Err(Refusal::Foreign));
/// assert_eq!(unprotected(255, 0, 0, 0), Err(Refusal::BadSetting));
/// # Ok::<(), Refusal>(())
/// ```
pub const fn unprotected(number: u8, request: u8, semi_octets: u16, bits: u16) -> Result<Unprotected, Refusal> {
    match number {
        0 => Ok(Unprotected { request, semi_octets, bits }),
        3 => Err(Refusal::BeyondRepair),
        4 => Err(Refusal::Foreign),
        _ => Err(Refusal::BadSetting),
    }
}
