//! What the works are done on.

pub const INDEX: u16 = 0x1018;
pub const SUB: u8 = 4;
pub const DATA: [u8; 4] = [0x78, 0x56, 0x34, 0x12];

pub const UPLOAD: u8 = 1;
pub const LIST: u8 = 4;
pub const SEGMENT: u8 = 7;

/// The longest data buffer that may be lent.
pub const ROOM: usize = 131_070;

/// Where a segment's chunk begins in its reply, and that of a list's later fragment.
pub const SEGMENT_AT: usize = 9;
const LIST_AT: usize = 12;

/// The longest chunks of a reply of 1,486 bytes.
pub const LONGEST: usize = 1_486 - SEGMENT_AT;
const LONGEST_OF_LIST: usize = 1_486 - LIST_AT;

/// An expedited reply with four bytes.
pub const EXPEDITED: [u8; 16] = *b"\x0a\0\0\0\0\x13\0\x30\x43\x18\x10\x04\x78\x56\x34\x12";

/// The same of type 4, which is listed and not CoE's: 23.
pub const WRONG_TYPE: [u8; 16] = *b"\x0a\0\0\0\0\x14\0\x30\x43\x18\x10\x04\x78\x56\x34\x12";

/// The drive aborts, since there is no such sub-index: 22.
pub const ABORT: [u8; 16] = *b"\x0a\0\0\0\0\x13\0\x20\x80\x18\x10\x04\x11\0\x09\x06";

/// The first reply to an upload of so many bytes, which segments follow.
pub fn announcement(size: usize) -> Vec<u8> {
    let mut reply = b"\x0a\0\0\0\0\x13\0\x30\x41\x18\x10\x04".to_vec();
    reply.extend((size as u32).to_le_bytes());
    reply
}

/// A reply with the headers' `length` field, its command byte, and the chunk from byte `from` on.
fn reply(length: usize, service: u8, command: u8, from: usize, chunk: &[u8]) -> Vec<u8> {
    let mut reply = vec![0; from];
    reply[..2].copy_from_slice(&(length as u16).to_le_bytes());
    reply[5] = 0x13;
    reply[7] = service << 4;
    reply[8] = command;
    reply.extend(chunk);
    reply
}

/// A segment. Of up to seven bytes it has the least length, and says how many of its seven bytes are none.
pub fn segment(chunk: &[u8], last: bool) -> Vec<u8> {
    let none = 7_usize.saturating_sub(chunk.len());
    let padded = [chunk, &vec![0; none]].concat();
    reply(3 + padded.len(), 3, (none as u8) << 1 | u8::from(last), SEGMENT_AT, &padded)
}

/// A list's fragment, which others follow or none. The first has the list's kind before its chunk.
pub fn fragment(chunk: &[u8], first: bool, last: bool) -> Vec<u8> {
    reply(8 + chunk.len(), 8, if last { 0x02 } else { 0x82 }, if first { LIST_AT + 2 } else { LIST_AT }, chunk)
}

/// So many bytes that are not alike.
pub fn payload(length: usize) -> Vec<u8> {
    (0..length).map(|i| (i * 73 + i / 256 + 41) as u8).collect()
}

/// The replies by which a drive uploads the payload in segments.
pub fn uploads(payload: &[u8]) -> Vec<Vec<u8>> {
    let last = (payload.len() - 1) / LONGEST;
    let segments = payload.chunks(LONGEST).enumerate().map(|(i, chunk)| segment(chunk, i == last));
    std::iter::once(announcement(payload.len())).chain(segments).collect()
}

/// The replies by which a drive sends an object list.
pub fn lists(payload: &[u8]) -> Vec<Vec<u8>> {
    let (first, later) = payload.split_at(LONGEST_OF_LIST - 2);
    let last = (later.len() - 1) / LONGEST_OF_LIST;
    let fragments = later.chunks(LONGEST_OF_LIST).enumerate().map(|(i, chunk)| fragment(chunk, false, i == last));
    std::iter::once(fragment(first, true, false)).chain(fragments).collect()
}
