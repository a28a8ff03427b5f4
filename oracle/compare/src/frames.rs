//! Request writers, by themselves. The text of one is as `frame upload 7 1018 c 16`: counter, index, sub-index or `c`, and the length of
//! the frame buffer; `frame download 2 6060 00 08000000 1 16` has four bytes and how many of them are meant; `frame segment 3 1 16` has
//! the toggle; `frame list 1 1 16` the list kind; `frame quantities 1 16` nothing more.
use crate::hex;
use crate::sides::guarded::Guarded;
use crate::sides::ours::list_kind;
use crate::transfer::FILL;
use coe_desk::{frames, Refusal, SubIndex};
use ethercrab::wire::EtherCrabWireRead;
use ethercrab::ObjectDescriptionListQuery;
use std::fmt;

#[derive(Debug, Clone, Copy, PartialEq, Eq)]
pub enum Request {
    Upload { index: u16, sub: Option<u8> },
    Download { index: u16, sub: Option<u8>, data: [u8; 4], len: u8 },
    Segment { toggle: bool },
    List { kind: u8 },
    Quantities,
}

#[derive(Debug, Clone, Copy, PartialEq, Eq)]
pub struct Frame {
    pub counter: u8,
    pub request: Request,
    /// The length of the lent buffer.
    pub size: usize,
}

/// What a writer answers, and its buffer afterwards.
#[derive(Debug, Clone, PartialEq, Eq)]
pub struct Written {
    pub number: u8,
    pub buffer: Vec<u8>,
}

impl Frame {
    pub fn ours(&self) -> Result<Written, String> {
        let mut buffer = Guarded::new(self.size);
        let (counter, frame) = (self.counter, buffer.lent());
        let access = |sub: Option<u8>| sub.map_or(SubIndex::Complete, SubIndex::Index);
        let answer = match self.request {
            Request::Upload { index, sub } => frames::upload(counter, index, access(sub), frame),
            Request::Download { index, sub, data, len } => {
                frames::download(counter, index, access(sub), &data[..usize::from(len)], frame)
            }
            Request::Segment { toggle } => frames::segment(counter, toggle, frame),
            Request::List { kind } => frames::object_list(counter, list_kind(kind.into()).ok_or("a list kind is 1 to 5")?, frame),
            Request::Quantities => frames::quantities(counter, frame),
        };
        Ok(Written { number: answer.map_or_else(Refusal::number, |()| 0x02), buffer: buffer.inside("frame buffer")?.to_vec() })
    }

    /// The published writer's frame, put at the front of the buffer.
    pub fn theirs(&self) -> Written {
        let packed = self.packed();
        let mut buffer = vec![FILL; self.size];
        match buffer.get_mut(..packed.len()) {
            Some(front) => front.copy_from_slice(&packed),
            None => return Written { number: 0x16, buffer },
        }
        Written { number: 0x02, buffer }
    }

    fn packed(&self) -> Vec<u8> {
        use ethercrab::{frames, SubIndex};
        let counter = self.counter;
        let access = |sub: Option<u8>| sub.map_or(SubIndex::Complete, SubIndex::Index);
        match self.request {
            Request::Upload { index, sub } => frames::upload(counter, index, access(sub)),
            Request::Download { index, sub, data, len } => frames::download(counter, index, access(sub), data, len),
            Request::Segment { toggle } => frames::segment(counter, toggle),
            Request::List { kind } => {
                let kind = ObjectDescriptionListQuery::unpack_from_slice(&[kind]).expect("a list kind is 1 to 5");
                frames::object_list(counter, kind)
            }
            Request::Quantities => frames::quantities(counter),
        }
    }

    pub fn packed_len(&self) -> usize {
        self.packed().len()
    }

    pub fn refused(&self, number: u8) -> Written {
        Written { number, buffer: vec![FILL; self.size] }
    }

    pub fn parse(text: &str) -> Result<Frame, String> {
        let bad = || format!("`{text}`: no frame; one is as `frame upload 7 1018 c 16`");
        let words: Vec<&str> = text.split_whitespace().collect();
        let byte = |at: usize| words[at].parse::<u8>().map_err(|_| bad());
        let object = || {
            let index = u16::from_str_radix(words[3], 16).map_err(|_| bad())?;
            let sub = if words[4] == "c" { None } else { Some(u8::from_str_radix(words[4], 16).map_err(|_| bad())?) };
            Ok::<_, String>((index, sub))
        };
        let request = match (words.get(1), words.len()) {
            (Some(&"upload"), 6) => object().map(|(index, sub)| Request::Upload { index, sub })?,
            (Some(&"download"), 8) => {
                let (index, sub) = object()?;
                let data = <[u8; 4]>::try_from(hex::bytes(words[5])?).map_err(|_| bad())?;
                Request::Download { index, sub, data, len: byte(6)?.min(4) }
            }
            (Some(&"segment"), 5) => Request::Segment { toggle: byte(3)? == 1 },
            (Some(&"list"), 5) => Request::List { kind: byte(3)? },
            (Some(&"quantities"), 4) => Request::Quantities,
            _ => return Err(bad()),
        };
        Ok(Frame { counter: byte(2)?, request, size: words[words.len() - 1].parse().map_err(|_| bad())? })
    }
}

impl fmt::Display for Frame {
    fn fmt(&self, f: &mut fmt::Formatter<'_>) -> fmt::Result {
        let Frame { counter, request, size } = self;
        let access = |sub: Option<u8>| sub.map_or("c".into(), |sub| format!("{sub:02x}"));
        match *request {
            Request::Upload { index, sub } => write!(f, "frame upload {counter} {index:04x} {} {size}", access(sub)),
            Request::Download { index, sub, data, len } => {
                write!(f, "frame download {counter} {index:04x} {} {} {len} {size}", access(sub), hex::text(&data))
            }
            Request::Segment { toggle } => write!(f, "frame segment {counter} {} {size}", u8::from(toggle)),
            Request::List { kind } => write!(f, "frame list {counter} {kind} {size}"),
            Request::Quantities => write!(f, "frame quantities {counter} {size}"),
        }
    }
}

impl fmt::Display for Written {
    fn fmt(&self, f: &mut fmt::Formatter<'_>) -> fmt::Result {
        write!(f, "{:02x}, buffer {}", self.number, hex::text(&self.buffer[..self.buffer.len().min(64)]))
    }
}
