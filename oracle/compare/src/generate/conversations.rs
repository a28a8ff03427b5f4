//! Good conversations of each kind: what a drive that keeps to the rules would reply.
use super::replies;
use crate::rng::Rng;
use crate::transfer::{Kind, Transfer};

/// Lengths of a chunk, round those at which a rule changes.
const CHUNKS: [usize; 14] = [0, 1, 2, 5, 6, 7, 8, 9, 14, 15, 16, 30, 64, 200];

/// An object to ask for, a counter, and once in sixteen a small budget.
pub fn asked(rng: &mut Rng, kind: Kind) -> Transfer {
    let index = match rng.below(4) {
        0 => rng.word(),
        1 => 0x6060,
        _ => 0x1018,
    };
    let sub = match rng.below(8) {
        0 => None,
        1 => Some(rng.byte()),
        2 => Some(0),
        3 => Some(255),
        _ => Some(1),
    };
    let mut transfer = Transfer::new(kind, index, sub, 0);
    transfer.counter = 1 + rng.below(7) as u8;
    if rng.once_in(16) {
        transfer.budget = 1 + rng.below(6) as u16;
    }
    transfer
}

fn object(transfer: &Transfer) -> (u16, u8) {
    (transfer.index, transfer.named_sub())
}

/// N round a length: mostly a little more, or it, and now and then one that is too small.
fn room_for(rng: &mut Rng, length: usize) -> usize {
    match rng.below(10) {
        0 => length.saturating_sub(1 + rng.below(4)),
        1..=4 => length,
        5 => length + 1,
        _ => length + rng.below(20),
    }
}

pub fn expedited(rng: &mut Rng) -> Transfer {
    let mut transfer = asked(rng, Kind::Read);
    let size = 1 + rng.below(4);
    transfer.room = room_for(rng, size);
    transfer.replies.push(replies::expedited(rng, object(&transfer), size));
    transfer
}

pub fn normal(rng: &mut Rng) -> Transfer {
    let mut transfer = asked(rng, Kind::Read);
    let length = if rng.once_in(16) { 1400 + rng.below(71) } else { rng.below(40) };
    let data = rng.bytes(length);
    transfer.room = room_for(rng, length);
    let complete_size = length - rng.below(3).min(length);
    transfer.replies.push(replies::normal(rng, object(&transfer), complete_size as u32, &data));
    transfer
}

/// An upload in segments, with N and the complete size round the sum of its chunks.
pub fn segmented(rng: &mut Rng) -> Transfer {
    let mut transfer = asked(rng, Kind::Read);
    let most = rng.pick(&[1, 2, 3, 5, 9, 20]);
    let chunks: Vec<Vec<u8>> = (0..1 + rng.below(most)).map(|_| chunk(rng)).collect();
    let sum: usize = chunks.iter().map(Vec::len).sum();
    transfer.room = room_for(rng, sum.max(1));
    let complete_size = if rng.once_in(4) { room_for(rng, sum) } else { sum.min(transfer.room) };
    let early = if rng.once_in(4) { rng.bytes(complete_size.saturating_sub(1).min(8)) } else { Vec::new() };
    let first = replies::normal(rng, object(&transfer), complete_size.max(1) as u32, &early);
    transfer.replies.push(first);
    let mut toggle = false;
    for (at, data) in chunks.iter().enumerate() {
        // The reply's toggle plays no part.
        let shown = if rng.once_in(8) { !toggle } else { toggle };
        transfer.replies.push(replies::segment(rng, data, at + 1 == chunks.len(), shown));
        toggle = !toggle;
    }
    surplus(rng, &mut transfer);
    transfer
}

fn chunk(rng: &mut Rng) -> Vec<u8> {
    let length = if rng.once_in(40) { 1400 + rng.below(78) } else { rng.pick(&CHUNKS) };
    rng.bytes(length)
}

/// Replies behind the last one, which nobody reads.
fn surplus(rng: &mut Rng, transfer: &mut Transfer) {
    if rng.once_in(8) {
        let again = rng.pick(&transfer.replies);
        transfer.replies.push(again);
    }
}

pub fn download(rng: &mut Rng) -> Transfer {
    let mut transfer = asked(rng, Kind::Write);
    let length = if rng.once_in(12) { rng.pick(&[0, 5, 6]) } else { 1 + rng.below(4) };
    transfer.data = rng.bytes(length);
    transfer.room = rng.below(3);
    transfer.replies.push(replies::downloaded(rng, object(&transfer)));
    transfer
}

/// A list in fragments, or the quantities in one, with other operations between.
pub fn list(rng: &mut Rng) -> Transfer {
    let kind = if rng.once_in(4) { Kind::Quantities } else { Kind::List };
    let mut transfer = asked(rng, kind);
    transfer.sub = Some(0);
    transfer.index = if kind == Kind::List { 1 + rng.below(5) as u16 } else { 0 };
    let most = rng.pick(&[1, 1, 2, 4, 12]);
    let chunks: Vec<Vec<u8>> = if kind == Kind::Quantities && !rng.once_in(4) {
        vec![rng.bytes(10)]
    } else {
        (0..1 + rng.below(most)).map(|_| list_chunk(rng)).collect()
    };
    transfer.room = match rng.below(24) {
        0 => 131_070,
        _ => room_for(rng, chunks.iter().map(Vec::len).sum()),
    };
    for (at, data) in chunks.iter().enumerate() {
        while rng.once_in(6) {
            transfer.replies.push(replies::other_operation(rng));
        }
        let named = if at == 0 { Some(transfer.index) } else { None };
        let left = (chunks.len() - 1 - at) as u16;
        transfer.replies.push(replies::fragment(rng, data, named, left > 0, left));
    }
    surplus(rng, &mut transfer);
    transfer
}

fn list_chunk(rng: &mut Rng) -> Vec<u8> {
    let length = match rng.below(40) {
        0 => 1468 + rng.below(8),
        1..=8 => rng.below(16),
        _ => 2 * rng.below(20),
    };
    rng.bytes(length)
}

/// What ends a transfer early: an abort or an emergency in place of a reply.
pub fn cut_short(rng: &mut Rng, transfer: &mut Transfer) {
    let at = rng.below(transfer.replies.len());
    let code = if rng.once_in(2) { 0x0602_0000 } else { rng.next() as u32 };
    let aborted = if rng.once_in(2) { (rng.word(), rng.byte()) } else { object(transfer) };
    transfer.replies[at] = if rng.once_in(3) { replies::emergency(rng) } else { replies::aborted(rng, aborted, code) };
}

pub fn any(rng: &mut Rng) -> Transfer {
    const KINDS: [fn(&mut Rng) -> Transfer; 7] = [expedited, normal, segmented, segmented, download, list, list];
    let mut transfer = rng.pick(&KINDS)(rng);
    if rng.once_in(12) {
        cut_short(rng, &mut transfer);
    }
    transfer
}
