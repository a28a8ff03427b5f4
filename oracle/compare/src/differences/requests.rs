//! Requests that the Rust takes, and document 01 refuses or writes otherwise.
use super::{Difference, Instead, Parting, Rule};
use crate::frames::{Frame, Request, Written};
use crate::ran::{End, Ran};
use crate::sides::theirs;
use crate::sides::theirs::Asked;
use crate::transfer::{Kind, Transfer, FILL};
use ethercrab::error::Error;
use ethercrab::play::Outcome;
use std::borrow::Cow;

pub const ALL: &[Difference] = &[
    Difference { id: "D1", smallest: "write 6060 00 - 0", rule: Rule::Transfer(nothing_to_write) },
    Difference { id: "D1", smallest: "frame download 1 6060 00 00000000 0 16", rule: Rule::Frame(frame_of_nothing) },
    Difference { id: "D2", smallest: "write 6060 00 0102030405 0", rule: Rule::Transfer(too_much_to_write) },
    Difference { id: "D4", smallest: "frame segment 8 0 16", rule: Rule::Frame(counter) },
    Difference { id: "D5", smallest: "frame segment 1 0 9", rule: Rule::Frame(buffer_length) },
    Difference { id: "D3", smallest: "frame download 1 6060 00 08112233 1 16", rule: Rule::Frame(junk_behind_the_data) },
    Difference { id: "D6", smallest: "frame segment 1 0 16", rule: Rule::Frame(rest_of_the_buffer) },
];

/// 15 takes no counter, sends nothing and stores nothing.
fn entry_refused<'a>(transfer: &Transfer) -> Option<Instead<'a>> {
    let refused = Ran::ending(End::Refused(0x15));
    Some(Instead::Ran(Ran { counter: transfer.counter, stored: vec![FILL; transfer.room], ..refused }))
}

/// The Rust's request is that of four bytes 00: size 4 does not go into two bits.
fn nothing_to_write<'a>(parting: &Parting<'a>) -> Option<Instead<'a>> {
    let transfer = parting.transfer();
    if transfer.kind != Kind::Write || !transfer.data.is_empty() {
        return None;
    }
    let of_four = Transfer { data: vec![0; 4], ..transfer.clone() };
    let of_four = theirs::run(&Asked { transfer: Cow::Owned(of_four), ..*parting.asked });
    (parting.theirs.ran == of_four.ran).then(|| entry_refused(transfer))?
}

fn frame_of_nothing(frame: &Frame, theirs: &Written) -> Option<Written> {
    match frame.request {
        Request::Download { index, sub, data, len: 0 } => {
            let of_four = Frame { request: Request::Download { index, sub, data, len: 4 }, ..*frame };
            (*theirs == of_four.theirs()).then(|| frame.refused(0x15))
        }
        _ => None,
    }
}

/// The Rust takes a counter, and then refuses.
fn too_much_to_write<'a>(parting: &Parting<'a>) -> Option<Instead<'a>> {
    let (transfer, ran) = (parting.transfer(), &parting.theirs.ran);
    let so = transfer.kind == Kind::Write
        && transfer.data.len() > 4
        && parting.theirs.outcome == Outcome::Refused(Error::Internal)
        && ran.sent.is_empty()
        && ran.counter == transfer.counter % 7 + 1;
    so.then(|| entry_refused(transfer))?
}

/// The Rust packs its array of four; we have the data alone.
fn junk_behind_the_data(frame: &Frame, theirs: &Written) -> Option<Written> {
    let (data, len) = match frame.request {
        Request::Download { data, len, .. } if len < 4 => (data, usize::from(len)),
        _ => return None,
    };
    let mut written = theirs.clone();
    let packed = written.buffer.get_mut(12..16)?;
    if packed != data {
        return None;
    }
    packed[len..].fill(0);
    (written != *theirs).then_some(written)
}

/// The Rust packs the low three bits of a counter that is none.
fn counter(frame: &Frame, theirs: &Written) -> Option<Written> {
    let low = Frame { counter: frame.counter & 7, ..*frame };
    (!(1..=7).contains(&frame.counter) && *theirs == low.theirs()).then(|| frame.refused(0x15))
}

/// The Rust takes a buffer that the frame fits in.
fn buffer_length(frame: &Frame, theirs: &Written) -> Option<Written> {
    let so = !(16..=1486).contains(&frame.size) && (1..=7).contains(&frame.counter);
    (so && (theirs.number == 0x02) == (frame.size >= frame.packed_len())).then(|| frame.refused(0x16))
}

/// The Rust's writers leave what stands behind the frame; it is zeros once the frame is in the mailbox.
fn rest_of_the_buffer(frame: &Frame, theirs: &Written) -> Option<Written> {
    let mut written = theirs.clone();
    let rest = written.buffer.get_mut(frame.packed_len()..)?;
    if rest.is_empty() || rest.iter().any(|&byte| byte != FILL) {
        return None;
    }
    rest.fill(0);
    Some(written)
}
