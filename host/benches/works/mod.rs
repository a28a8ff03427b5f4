//! The works that are timed, each for the archive's and the plain form alike.
//!
//! What a function is handed is opaque, or the compiler would make a plain function for these numbers alone. It is so before the loop,
//! where that costs nothing.
mod desks;
pub mod inputs;
mod storing;
mod transfers;

pub use desks::{enter, leave, receive, receive_segment, refused_send, round_trip, send, Calls};
pub use storing::{copied, stored};
pub use transfers::{transfer, transferred};

use crate::ffi::Answer;
use crate::timing::{each, opaque};
use inputs::{DATA, INDEX, SUB};

/// In one round.
const CALLS: u32 = 2_000;

/// The frames that `write` puts into a buffer of `length` bytes, with counter 3.
fn written(length: usize, write: impl Fn(u8, &mut [u8]) -> u8) -> f64 {
    let mut frame = vec![0; length];
    let (counter, frame) = (opaque(3), opaque(&mut frame[..]));
    each(CALLS, || {
        opaque(write(counter, frame));
    })
}

pub fn upload(write: impl Fn(u8, u16, u8, u8, &mut [u8]) -> u8, length: usize) -> f64 {
    let (index, sub, complete) = (opaque(INDEX), opaque(SUB), opaque(0));
    written(length, |counter, frame| write(counter, index, sub, complete, frame))
}

/// With four bytes of data.
pub fn download(write: impl Fn(u8, u16, u8, u8, &[u8], &mut [u8]) -> u8, length: usize) -> f64 {
    let (index, sub, complete, data) = (opaque(INDEX), opaque(SUB), opaque(0), opaque(&DATA[..]));
    written(length, |counter, frame| write(counter, index, sub, complete, data, frame))
}

pub fn segment(write: impl Fn(u8, u8, &mut [u8]) -> u8, length: usize) -> f64 {
    let toggle = opaque(1);
    written(length, |counter, frame| write(counter, toggle, frame))
}

pub fn list(write: impl Fn(u8, u16, &mut [u8]) -> u8, length: usize) -> f64 {
    let kind = opaque(1);
    written(length, |counter, frame| write(counter, kind, frame))
}

/// The judgement of a reply to a request of the judge's `kind`, with a data buffer of `room` bytes.
pub fn judge(judge: impl Fn(u8, u16, u8, u32, &[u8], &mut [u8]) -> Answer, kind: u8, reply: &[u8], room: usize) -> f64 {
    let mut data = vec![0; room];
    let (kind, index, sub, earlier) = (opaque(kind), opaque(INDEX), opaque(SUB), opaque(0));
    let (reply, data) = (opaque(reply), opaque(&mut data[..]));
    each(CALLS, || {
        opaque(judge(kind, index, sub, earlier, reply, data));
    })
}
