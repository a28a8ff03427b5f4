//! The writers and the judge for a script: a line of standard input is a call, a line of standard output its answer. Words are
//! hexadecimal; SUB may be `complete`, and kind 0 stands for the quantities.
//!
//! ```text
//! upload COUNTER INDEX SUB                   judge upload ROOM REPLY INDEX SUB
//! download COUNTER INDEX SUB DATA            judge download ROOM REPLY INDEX SUB
//! segment COUNTER TOGGLE                     judge segment ROOM REPLY
//! list COUNTER KIND                          judge list ROOM REPLY, judge fragment ROOM REPLY
//! ```
//!
//! An answer is the specification's number and what goes with it: the frame, in a mailbox of 128 bytes; the chunk, of a reply with
//! none before it; of 21 code, register and the five bytes; of 22 code, index and sub-index.
use coe_desk::{frames, judge, Expected, Judged, ListKind, Refusal, SubIndex};
use std::io::{self, BufRead};
use std::str::SplitWhitespace;

const MAILBOX: usize = 128;

fn main() -> Result<(), String> {
    for line in io::stdin().lock().lines() {
        let line = line.map_err(|error| error.to_string())?;
        let words = Words(line.split_whitespace());
        println!("{}", answer(words).ok_or(format!("no call, or a word of it is missing or wrong: {line}"))?);
    }
    Ok(())
}

struct Words<'a>(SplitWhitespace<'a>);

impl Words<'_> {
    fn number<N: TryFrom<u32>>(&mut self) -> Option<N> {
        u32::from_str_radix(self.0.next()?, 16).ok()?.try_into().ok()
    }

    fn flag(&mut self) -> Option<bool> {
        match self.number()? {
            0u8 => Some(false),
            1 => Some(true),
            _ => None,
        }
    }

    fn bytes(&mut self) -> Option<Vec<u8>> {
        let digits = self.0.next()?;
        (0..digits.len()).step_by(2).map(|at| u8::from_str_radix(digits.get(at..at + 2)?, 16).ok()).collect()
    }

    fn sub_index(&mut self) -> Option<SubIndex> {
        match self.0.clone().next()? {
            "complete" => self.0.next().map(|_| SubIndex::Complete),
            _ => self.number().map(SubIndex::Index),
        }
    }
}

fn answer(mut words: Words) -> Option<String> {
    let mut frame = [0xff; MAILBOX];
    let written = match words.0.next()? {
        "upload" => frames::upload(words.number()?, words.number()?, words.sub_index()?, &mut frame),
        "download" => frames::download(words.number()?, words.number()?, words.sub_index()?, &words.bytes()?, &mut frame),
        "segment" => frames::segment(words.number()?, words.flag()?, &mut frame),
        "list" => list(words.number()?, words.number()?, &mut frame)?,
        "judge" => return judged(words),
        _ => return None,
    };
    Some(written.map_or_else(refused, |()| with_bytes(0x02, &frame)))
}

fn list(counter: u8, kind: u8, frame: &mut [u8]) -> Option<Result<(), Refusal>> {
    let kind = match kind {
        0 => return Some(frames::quantities(counter, frame)),
        1 => ListKind::All,
        2 => ListKind::RxPdoMappable,
        3 => ListKind::TxPdoMappable,
        4 => ListKind::StoredForDeviceReplacement,
        5 => ListKind::StartupParameters,
        _ => return None,
    };
    Some(frames::object_list(counter, kind, frame))
}

fn judged(mut words: Words) -> Option<String> {
    let (name, room, reply) = (words.0.next()?, words.number::<u32>()?, words.bytes()?);
    let expected = match name {
        "upload" => Expected::Upload { index: words.number()?, sub_index: words.sub_index()? },
        "download" => Expected::Download { index: words.number()?, sub_index: words.sub_index()? },
        "segment" => Expected::Segment { earlier: 0 },
        "list" => Expected::List { begun: false, earlier: 0 },
        "fragment" => Expected::List { begun: true, earlier: 0 },
        _ => return None,
    };
    let mut data = vec![0; room as usize];
    Some(match judge(expected, &reply, &mut data) {
        Ok(Judged::Done { length }) => with_bytes(0x00, &data[..length.min(data.len())]),
        Ok(Judged::RequestDue { chunk }) => with_bytes(0x01, &data[..chunk]),
        Ok(Judged::ReplyDue { chunk, .. }) => with_bytes(0x02, &data[..chunk]),
        Err(refusal) => refused(refusal),
    })
}

fn with_bytes(number: u8, bytes: &[u8]) -> String {
    format!("{number:02x} {}", digits(bytes))
}

fn digits(bytes: &[u8]) -> String {
    bytes.iter().map(|byte| format!("{byte:02x}")).collect()
}

fn refused(refusal: Refusal) -> String {
    let number = refusal.number();
    match refusal {
        Refusal::Emergency { code, register, data } => format!("{number:02x} {code:x} {register:x} {}", digits(&data)),
        Refusal::Aborted { code, index, sub_index } => format!("{number:02x} {:x} {index:x} {sub_index:x}", u32::from(code)),
        _ => format!("{number:02x}"),
    }
}
