//! A transfer: what a task asks and lends, and the drive's replies. Its text is an entry line and a line for each reply:
//!
//!     read 1018 01 - 4 1 1024
//!     0a000000001300304318100178563412
//!
//! kind, index (of a list its kind), sub-index or `c` for complete access, data, N, the first request's counter, budget. The last two may
//! be left out.
use crate::hex;
use ethercrab::play::Number;
use std::fmt;

pub use coe_desk::DEFAULT_BUDGET;

/// What a lent buffer holds before it is lent.
pub const FILL: u8 = 0xa5;

#[derive(Debug, Clone, Copy, PartialEq, Eq)]
pub enum Kind {
    Read,
    ReadNumber(Number),
    Write,
    List,
    Quantities,
}

const KINDS: [(&str, Kind); 10] = [
    ("read", Kind::Read),
    ("u8", Kind::ReadNumber(Number::U8)),
    ("u16", Kind::ReadNumber(Number::U16)),
    ("u32", Kind::ReadNumber(Number::U32)),
    ("i8", Kind::ReadNumber(Number::I8)),
    ("i16", Kind::ReadNumber(Number::I16)),
    ("i32", Kind::ReadNumber(Number::I32)),
    ("write", Kind::Write),
    ("list", Kind::List),
    ("quantities", Kind::Quantities),
];

pub fn size_of(number: Number) -> usize {
    match number {
        Number::U8 | Number::I8 => 1,
        Number::U16 | Number::I16 => 2,
        Number::U32 | Number::I32 => 4,
    }
}

#[derive(Debug, Clone, PartialEq, Eq)]
pub struct Transfer {
    pub kind: Kind,
    pub index: u16,
    /// None is complete access.
    pub sub: Option<u8>,
    pub data: Vec<u8>,
    /// N, the length of the lent data buffer.
    pub room: usize,
    pub counter: u8,
    pub budget: u16,
    pub replies: Vec<Vec<u8>>,
}

impl Transfer {
    pub fn new(kind: Kind, index: u16, sub: Option<u8>, room: usize) -> Transfer {
        Transfer { kind, index, sub, data: Vec::new(), room, counter: 1, budget: DEFAULT_BUDGET, replies: Vec::new() }
    }

    /// Whose replies behind the first are segments.
    pub fn is_read(&self) -> bool {
        matches!(self.kind, Kind::Read | Kind::ReadNumber(_))
    }

    pub fn is_information(&self) -> bool {
        matches!(self.kind, Kind::List | Kind::Quantities)
    }

    /// The sub-index that requests and replies name.
    pub fn named_sub(&self) -> u8 {
        self.sub.unwrap_or(1)
    }

    pub fn parse(text: &str) -> Result<Transfer, String> {
        let mut lines = text.lines().map(str::trim).filter(|line| !line.is_empty());
        let mut transfer = parse_entry(lines.next().unwrap_or_default())?;
        transfer.replies = lines.map(hex::bytes).collect::<Result<_, _>>()?;
        Ok(transfer)
    }
}

pub fn parse_entry(line: &str) -> Result<Transfer, String> {
    let bad = |what: &str| format!("`{line}`: {what}; an entry is as `read 1018 01 - 4 1 1024`");
    let words: Vec<&str> = line.split_whitespace().collect();
    if !(5..=7).contains(&words.len()) {
        return Err(bad("five to seven words are expected"));
    }
    let kind = KINDS.iter().find(|(name, _)| *name == words[0]).ok_or_else(|| bad("no such kind"))?.1;
    let decimal = |at: usize, default: u16| words.get(at).map_or(Ok(default), |word| word.parse().map_err(|_| bad("no number")));
    Ok(Transfer {
        kind,
        index: u16::from_str_radix(words[1], 16).map_err(|_| bad("no index"))?,
        sub: match words[2] {
            "c" => None,
            word => Some(u8::from_str_radix(word, 16).map_err(|_| bad("no sub-index"))?),
        },
        data: hex::bytes(words[3])?,
        room: words[4].parse().map_err(|_| bad("no N"))?,
        counter: match decimal(5, 1)? {
            counter @ 1..=7 => counter as u8,
            _ => return Err(bad("a counter is 1 to 7")),
        },
        budget: decimal(6, DEFAULT_BUDGET)?,
        replies: Vec::new(),
    })
}

impl fmt::Display for Transfer {
    fn fmt(&self, f: &mut fmt::Formatter<'_>) -> fmt::Result {
        let kind = KINDS.iter().find(|(_, kind)| *kind == self.kind).map_or("", |(name, _)| name);
        let sub = self.sub.map_or("c".into(), |sub| format!("{sub:02x}"));
        let data = hex::text(&self.data);
        write!(f, "{kind} {:04x} {sub} {data} {} {} {}", self.index, self.room, self.counter, self.budget)?;
        self.replies.iter().try_for_each(|reply| write!(f, "\n{}", hex::text(reply)))
    }
}
