//! What one side made of a transfer: all that is compared.
use crate::hex;
use std::fmt;

#[derive(Debug, Clone, PartialEq, Eq)]
pub enum End {
    /// 00, and P.
    Done { length: usize },
    /// 03: the replies are used up.
    Left,
    /// A call was refused, 1x, and the transfer left.
    Refused(u8),
    /// 2x but 21, with the values that were given.
    Over { number: u8, code: u32, index: u16, sub: u8 },
    /// 21.
    Emergency { code: u16, register: u8, data: [u8; 5] },
    /// The Rust's alone: it read P bytes, but they are not what was asked for, and one call has one answer.
    Undecoded { length: usize },
    /// The Rust's alone.
    Panicked(String),
}

impl End {
    pub fn over(number: u8) -> End {
        End::Over { number, code: 0, index: 0, sub: 0 }
    }
}

/// What was read of the payload, where numbers were asked for.
#[derive(Debug, Clone, PartialEq, Eq)]
pub enum Read {
    Nothing,
    Numbers(Vec<i64>),
    Refused,
}

#[derive(Debug, Clone, PartialEq, Eq)]
pub struct Ran {
    pub end: End,
    pub read: Read,
    /// The requests, each with all sixteen bytes of its buffer.
    pub sent: Vec<Vec<u8>>,
    pub judged: usize,
    /// The next request's counter.
    pub counter: u8,
    /// The lent data buffer afterwards.
    pub stored: Vec<u8>,
}

impl Ran {
    /// Nothing but the end is known yet.
    pub fn ending(end: End) -> Ran {
        Ran { end, read: Read::Nothing, sent: Vec::new(), judged: 0, counter: 0, stored: Vec::new() }
    }

    /// The parts in which two runs differ, by name.
    pub fn differing(&self, other: &Ran) -> Vec<&'static str> {
        let parts = [
            ("number or values", self.end == other.end),
            ("what was read", self.read == other.read),
            ("frames", self.sent == other.sent),
            ("replies judged", self.judged == other.judged),
            ("next counter", self.counter == other.counter),
            ("data buffer", self.stored == other.stored),
        ];
        parts.iter().filter(|(_, same)| !same).map(|(name, _)| *name).collect()
    }
}

const SHOWN: usize = 64;

impl fmt::Display for Ran {
    fn fmt(&self, f: &mut fmt::Formatter<'_>) -> fmt::Result {
        match &self.end {
            End::Done { length } => write!(f, "00, P = {length}")?,
            End::Left => write!(f, "03")?,
            End::Refused(number) => write!(f, "{number:02x}")?,
            End::Over { number, code, index, sub } => write!(f, "{number:02x}, values {code:08x} {index:04x} {sub:02x}")?,
            End::Emergency { code, register, data } => write!(f, "21, values {code:04x} {register:02x} {}", hex::text(data))?,
            End::Undecoded { length } => write!(f, "20 after P = {length}")?,
            End::Panicked(text) => write!(f, "panic: {text}")?,
        }
        match &self.read {
            Read::Nothing => {}
            Read::Numbers(numbers) => write!(f, "; read {numbers:?}")?,
            Read::Refused => write!(f, "; read refused")?,
        }
        let sent: Vec<String> = self.sent.iter().rev().take(3).rev().map(|frame| hex::text(frame)).collect();
        write!(f, "\n      {} replies judged, {} requests, the last {}", self.judged, self.sent.len(), sent.join(" "))?;
        write!(f, "\n      next counter {}, data {}", self.counter, hex::text(&self.stored[..self.stored.len().min(SHOWN)]))
    }
}
