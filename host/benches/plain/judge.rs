//! The reply judge.
use super::chunk::Chunk;
use super::numbered;
use crate::ffi::Answer;

/// The least length of a reply that is no segment's.
const LEAST: usize = 12;
const SEGMENT_LEAST: usize = 9;
const SEGMENT_AT: u16 = 9;
const EMERGENCY_LEAST: usize = 16;

/// What a reply is judged by. `earlier` is the sum of the chunks before it.
#[derive(Debug, Clone, Copy)]
pub enum Expected {
    Upload { index: u16, sub: u8 },
    Download { index: u16, sub: u8 },
    Segment { earlier: u32 },
    List { begun: bool, earlier: u32 },
}

#[derive(Debug, Clone, Copy)]
pub enum Next {
    Done,
    RequestDue,
    ReplyDue { begun: bool },
}

#[derive(Debug, Clone, Copy)]
pub struct Verdict {
    pub next: Next,
    pub chunk: Chunk,
}

fn word(reply: &[u8], at: usize) -> u16 {
    u16::from_le_bytes([reply[at], reply[at + 1]])
}

fn long(reply: &[u8], at: usize) -> u32 {
    u32::from_le_bytes([reply[at], reply[at + 1], reply[at + 2], reply[at + 3]])
}

/// Five bytes, the first lowest.
fn five(reply: &[u8], at: usize) -> u64 {
    u64::from_le_bytes([reply[at], reply[at + 1], reply[at + 2], reply[at + 3], reply[at + 4], 0, 0, 0])
}

fn expect_len(reply: &[u8], least: usize) -> Result<(), Answer> {
    if reply.len() < least {
        return Err(numbered(0x20));
    }
    Ok(())
}

fn expect_listed(listed: bool) -> Result<(), Answer> {
    if listed {
        Ok(())
    } else {
        Err(numbered(0x20))
    }
}

/// At least so many bytes, and a type and service that are listed. The compiler knows the number, and tests no place behind it again.
fn expect_header<const LEAST: usize>(reply: &[u8]) -> Result<(), Answer> {
    expect_len(reply, LEAST)?;
    expect_listed(matches!(reply[5] & 0x0f, 0..=5 | 15) && matches!(reply[7] >> 4, 1..=8))
}

/// The rules that every SDO reply is judged by: an emergency, whose byte 8 is no specifier's, or an abort comes before the type.
fn expect_sdo<const LEAST: usize>(reply: &[u8]) -> Result<(), Answer> {
    expect_header::<LEAST>(reply)?;
    if reply[7] >> 4 == 1 {
        expect_len(reply, EMERGENCY_LEAST)?;
        return Err(Answer { code: word(reply, 8).into(), sub: reply[10], data: five(reply, 11), ..numbered(0x21) });
    }
    let specifier = reply[8] >> 5;
    expect_listed(specifier <= 4)?;
    if specifier == 4 {
        expect_len(reply, 16)?;
        return Err(Answer { code: long(reply, 12), index: word(reply, 9), sub: reply[11], ..numbered(0x22) });
    }
    if reply[5] & 0x0f != 3 {
        return Err(numbered(0x23));
    }
    Ok(())
}

fn expect_object(reply: &[u8], index: u16, sub: u8) -> Result<(), Answer> {
    expect_sdo::<LEAST>(reply)?;
    if word(reply, 9) != index || reply[11] != sub {
        return Err(numbered(0x23));
    }
    Ok(())
}

fn upload(reply: &[u8], room: usize) -> Result<Verdict, Answer> {
    let command = reply[8];
    if command & 2 != 0 {
        let len = 4 - u16::from(command >> 2 & 3);
        return Ok(Verdict { next: Next::Done, chunk: Chunk { from: 12, len, at: 0 }.there(reply)? });
    }
    expect_len(reply, 16)?;
    let size = long(reply, 12) as usize;
    if room < size {
        return Err(numbered(0x24));
    }
    let len = word(reply, 0).saturating_sub(10);
    if size <= usize::from(len) {
        return Ok(Verdict { next: Next::Done, chunk: Chunk { from: 16, len, at: 0 }.there(reply)? });
    }
    Ok(Verdict { next: Next::RequestDue, chunk: Chunk::none(0) })
}

/// The length field less the headers of this kind of reply.
fn chunk_length(reply: &[u8], headers: u16) -> Result<u16, Answer> {
    word(reply, 0).checked_sub(headers).ok_or(numbered(0x26))
}

fn segment(reply: &[u8], earlier: u32, room: usize) -> Result<Verdict, Answer> {
    let len = match chunk_length(reply, 3)? {
        7 => 7 - u16::from(reply[8] >> 1 & 7),
        len => len,
    };
    let chunk = Chunk { from: SEGMENT_AT, len, at: earlier }.there(reply)?.fits(room)?;
    Ok(Verdict { next: if reply[8] & 1 != 0 { Next::Done } else { Next::RequestDue }, chunk })
}

fn list(reply: &[u8], begun: bool, earlier: u32, room: usize) -> Result<Verdict, Answer> {
    let operation = reply[8] & 0x7f;
    expect_listed(matches!(operation, 1..=7))?;
    if operation != 2 {
        return Ok(Verdict { next: Next::ReplyDue { begun }, chunk: Chunk::none(earlier) });
    }
    let len = chunk_length(reply, 8)?;
    let chunk = Chunk { from: if begun { 12 } else { 14 }, len, at: earlier }.there(reply)?.fits(room)?;
    Ok(Verdict { next: if reply[8] & 0x80 != 0 { Next::ReplyDue { begun: true } } else { Next::Done }, chunk })
}

/// What the reply comes to with a data buffer of `room` bytes; the answer is a 2x.
pub fn verdict(expected: Expected, reply: &[u8], room: usize) -> Result<Verdict, Answer> {
    match expected {
        Expected::Upload { index, sub } => expect_object(reply, index, sub).and_then(|()| upload(reply, room)),
        Expected::Download { index, sub } => {
            expect_object(reply, index, sub)?;
            expect_len(reply, 16)?;
            Ok(Verdict { next: Next::Done, chunk: Chunk::none(0) })
        }
        Expected::Segment { earlier } => expect_sdo::<SEGMENT_LEAST>(reply).and_then(|()| segment(reply, earlier, room)),
        Expected::List { begun, earlier } => expect_header::<LEAST>(reply).and_then(|()| list(reply, begun, earlier, room)),
    }
}

pub fn lengths_fit(reply: &[u8], data: &[u8]) -> bool {
    reply.len() <= 1486 && data.len() <= 131_070
}

#[inline(never)]
pub fn judge(kind: u8, index: u16, sub: u8, earlier: u32, reply: &[u8], data: &mut [u8]) -> Answer {
    let expected = match kind {
        1 => Expected::Upload { index, sub },
        3 => Expected::Download { index, sub },
        4 => Expected::List { begun: false, earlier },
        7 => Expected::Segment { earlier },
        8 => Expected::List { begun: true, earlier },
        _ => return numbered(0x15),
    };
    if !lengths_fit(reply, data) {
        return numbered(0x16);
    }
    let Verdict { next, chunk } = match verdict(expected, reply, data.len()) {
        Ok(verdict) => verdict,
        Err(refusal) => return refusal,
    };
    chunk.store(reply, data);
    let length = chunk.len.into();
    match next {
        Next::Done => Answer { length: chunk.end(), ..numbered(0x00) },
        Next::RequestDue => Answer { length, ..numbered(0x01) },
        Next::ReplyDue { begun } => Answer { length, sub: begun.into(), ..numbered(0x02) },
    }
}
