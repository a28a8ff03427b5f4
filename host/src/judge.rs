use crate::ffi;
use crate::{Refusal, SubIndex};

/// The request that a reply is judged by.
#[derive(Debug, Clone, Copy, PartialEq, Eq)]
pub enum Expected {
    /// The request to read an object.
    Upload {
        /// The object's index.
        index: u16,
        /// Which part of it.
        sub_index: SubIndex,
    },
    /// The request to write an object.
    Download {
        /// The object's index.
        index: u16,
        /// Which part of it.
        sub_index: SubIndex,
    },
    /// The request for an upload's next segment. The reply's data begin at byte 9, by ETG.1000.6; ethercrab takes them from
    /// byte 12.
    Segment {
        /// The sum of the chunks before this one.
        earlier: u32,
    },
    /// The request for an object list, or for the quantities.
    List {
        /// Whether a reply of the list has come.
        begun: bool,
        /// The sum of the chunks before this one.
        earlier: u32,
    },
}

/// What a reply that was accepted comes to.
#[derive(Debug, Clone, Copy, PartialEq, Eq)]
pub enum Judged {
    /// 00: it was the last.
    Done {
        /// The payload's length.
        length: usize,
    },
    /// 01: the next segment is to be asked for.
    RequestDue {
        /// The bytes that this reply added.
        chunk: usize,
    },
    /// 02: the drive sends on by itself.
    ReplyDue {
        /// The bytes that this reply added.
        chunk: usize,
        /// Whether a reply of the list has come.
        begun: bool,
    },
}

/// Judges one reply and stores its chunk in `data`, behind the earlier ones: the judgement of
/// [`Desk::receive`](crate::Desk::receive) without turns and budget, for a host that keeps its own.
///
/// ```
/// use coe_desk::{judge, Expected, Judged, SubIndex};
///
/// let expected = Expected::Upload { index: 0x1018, sub_index: SubIndex::Index(1) };
/// let reply = b"\x0a\0\0\0\0\x13\0\x30\x43\x18\x10\x01\x78\x56\x34\x12";
/// let mut data = [0; 4];
/// assert_eq!(judge(expected, reply, &mut data), Ok(Judged::Done { length: 4 }));
/// assert_eq!(data, [0x78, 0x56, 0x34, 0x12]);
/// ```
///
/// # Errors
/// [`Refusal::BufferLength`], or a 2x. A refusal leaves `data` as it was.
pub fn judge(expected: Expected, reply: &[u8], data: &mut [u8]) -> Result<Judged, Refusal> {
    let answer = match expected {
        Expected::Upload { index, sub_index } => ffi::judge(1, index, sub_index.number(), 0, reply, data),
        Expected::Download { index, sub_index } => ffi::judge(3, index, sub_index.number(), 0, reply, data),
        Expected::Segment { earlier } => ffi::judge(7, 0, 0, earlier, reply, data),
        Expected::List { begun, earlier } => ffi::judge(if begun { 8 } else { 4 }, 0, 0, earlier, reply, data),
    };
    let length = answer.length as usize;
    match answer.number {
        0x00 => Ok(Judged::Done { length }),
        0x01 => Ok(Judged::RequestDue { chunk: length }),
        0x02 => Ok(Judged::ReplyDue { chunk: length, begun: answer.sub == 1 }),
        _ => Err(Refusal::of_answer(answer)),
    }
}
