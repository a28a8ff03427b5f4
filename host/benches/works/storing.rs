//! What the storing of a chunk takes.
use super::inputs::{payload, segment, SEGMENT, SEGMENT_AT};
use super::{judge, CALLS};
use crate::ffi;
use crate::timing::{each, opaque};

/// A segment's judgement, less that of an empty segment, which stores nothing.
pub fn stored(length: usize) -> f64 {
    let [chunk, empty] = [length, 0].map(|length| segment(&payload(length), false));
    judge(ffi::judge, SEGMENT, &chunk, length) - judge(ffi::judge, SEGMENT, &empty, length)
}

/// The same bytes from the same place by memcpy, less the loop around it.
pub fn copied(length: usize) -> f64 {
    let reply = segment(&payload(length), false);
    let mut data = vec![0; length];
    let (chunk, data) = (opaque(&reply[SEGMENT_AT..]), opaque(&mut data[..]));
    let copies = each(CALLS, || opaque(&mut *data).copy_from_slice(opaque(chunk)));
    let none = each(CALLS, || {
        (opaque(&mut *data), opaque(chunk));
    });
    copies - none
}
