//! Silberlaus: the path of LC3plus speech from headset to base and into the night's record (ETSI TS 103 634, Annex A.1
//! and clauses 5.3 and 5.4), as safe functions over memory that the caller lends. What comes back is right, or it is refused
//! by number. No heap, no global state, no `std`.
//!
//! The work is done by code that is written in Rattle and proved; this crate hands it slices and gives its answers names.
//! A refusal leaves every lent byte as it was. `include/silberlaus.h` of the repository says what a call needs of the
//! stack.
//!
//! A frame is sent, damaged on the way, received, and kept ([`write_frame`] has an example from its fields to its fields):
//!
//! ```
//! use silberlaus::{frame_size, protect, record, unprotect};
//!
//! let mode = 3; // repairs two semi-octets in each code word
//! let mut slot = [0; 80];
//! let frame = [7; 53];
//! assert_eq!(frame_size(slot.len(), mode), Some(frame.len()));
//! protect(mode, 1, &frame, &mut slot)?;
//!
//! slot[9] ^= 0x40; // one bit
//!
//! let mut heard = [0; 53];
//! let got = unprotect(mode, &slot, &mut heard)?;
//! assert_eq!((heard, got.request, got.semi_octets, got.bits), (frame, 1, 1, 1));
//!
//! let mut night = [0; 1024];
//! let mut used = record::new(2, &mut night)?;
//! let bits = Some(got.bits.into());
//! used = record::add(&mut night, used, &heard, got.request.into(), got.semi_octets.into(), bits)?;
//! assert_eq!(record::frame(2, &night[..used], 0)?, frame);
//! # Ok::<(), silberlaus::Refusal>(())
//! ```
#![cfg_attr(not(test), no_std)]

#[allow(unsafe_code)]
mod ffi;
mod frame;
pub mod record;
mod refusal;
mod slot;

pub use frame::{Frame, Pitch, Shape, Tns, line_count, read_frame, write_frame};
pub use refusal::{Cause, Refusal};
pub use slot::{Unprotected, frame_size, protect, unprotect, unprotect_each, unprotected};
