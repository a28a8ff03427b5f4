//! The mailbox's rules once more, as a careful Rust programmer would write them: what the archive's functions are timed beside.
//!
//! The functions that are timed are never inlined, since a call into the archive can't be.
mod chunk;
mod desk;
mod frames;
mod judge;

pub use desk::Desk;
pub use frames::{download_frame, list_frame, segment_frame, upload_frame};
pub use judge::judge;

use crate::ffi::Answer;

/// An answer that is its number alone.
const fn numbered(number: u8) -> Answer {
    Answer { number, sub: 0, index: 0, code: 0, length: 0, data: 0 }
}
