//! The request writers, for a host that keeps its own turns and counter. A [`Desk`](crate::Desk) needs none of them.
//!
//! A frame stands at the front of the lent buffer, and zeros fill the rest. A counter not 1 to 7 is [`Refusal::BadOrder`], a
//! buffer not of 16 to 1,486 bytes [`Refusal::BufferLength`], in this order; a refusal leaves the buffer as it was.
//!
//! ```
//! use coe_desk::{frames, SubIndex};
//!
//! let mut frame = [0xff; 16];
//! frames::upload(7, 0x1018, SubIndex::Complete, &mut frame)?;
//! assert_eq!(frame, *b"\x0a\0\0\0\0\x73\0\x20\x50\x18\x10\x01\0\0\0\0");
//! # Ok::<(), coe_desk::Refusal>(())
//! ```
use crate::ffi;
use crate::{ListKind, Refusal, SubIndex};

/// The request to read an object.
///
/// # Errors
/// [`Refusal::BadOrder`], [`Refusal::BufferLength`].
pub fn upload(counter: u8, index: u16, sub_index: impl Into<SubIndex>, frame: &mut [u8]) -> Result<(), Refusal> {
    let sub_index = sub_index.into();
    written(ffi::upload_frame(counter, index, sub_index.number(), sub_index.is_complete(), frame))
}

/// The request to write one to four bytes to an object.
///
/// # Errors
/// [`Refusal::BadOrder`], also for data of another length; [`Refusal::BufferLength`].
pub fn download(counter: u8, index: u16, sub_index: impl Into<SubIndex>, data: &[u8], frame: &mut [u8]) -> Result<(), Refusal> {
    let sub_index = sub_index.into();
    written(ffi::download_frame(counter, index, sub_index.number(), sub_index.is_complete(), data, frame))
}

/// The request for an upload's next segment. The toggle is clear in the first and then alternates.
///
/// # Errors
/// [`Refusal::BadOrder`], [`Refusal::BufferLength`].
pub fn segment(counter: u8, toggle: bool, frame: &mut [u8]) -> Result<(), Refusal> {
    written(ffi::segment_frame(counter, toggle, frame))
}

/// The request for an object list.
///
/// # Errors
/// [`Refusal::BadOrder`], [`Refusal::BufferLength`].
pub fn object_list(counter: u8, kind: ListKind, frame: &mut [u8]) -> Result<(), Refusal> {
    written(ffi::list_frame(counter, kind as u16, frame))
}

/// The request for the lengths of the five lists.
///
/// # Errors
/// [`Refusal::BadOrder`], [`Refusal::BufferLength`].
pub fn quantities(counter: u8, frame: &mut [u8]) -> Result<(), Refusal> {
    written(ffi::list_frame(counter, 0, frame))
}

fn written(number: u8) -> Result<(), Refusal> {
    match number {
        0x02 => Ok(()),
        number => Err(Refusal::of_number(number)),
    }
}
