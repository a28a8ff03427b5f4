//! Whole transfers, payloads, frames and order files by chance.
use super::conversations::{any, asked, list, segmented};
use super::damage::{damage, EDGES};
use super::replies;
use crate::case::Case;
use crate::frames::{Frame, Request};
use crate::hex;
use crate::orders::Order;
use crate::rng::Rng;
use crate::transfer::{size_of, Kind, Transfer};
use ethercrab::play::Number;

const NUMBERS: [Number; 6] = [Number::U8, Number::U16, Number::U32, Number::I8, Number::I16, Number::I32];

pub fn segments(rng: &mut Rng) -> Case {
    Case::Transfer(segmented(rng))
}

pub fn lists(rng: &mut Rng) -> Case {
    Case::Transfer(list(rng))
}

pub fn damaged(rng: &mut Rng) -> Case {
    let mut transfer = any(rng);
    for _ in 0..1 + rng.below(3) {
        damage(rng, &mut transfer);
    }
    Case::Transfer(transfer)
}

/// Two transfers at one desk. The second's counter is what the first leaves.
pub fn pair(rng: &mut Rng) -> Case {
    let [first, second] = [entered(rng), entered(rng)];
    Case::Pair(first, second)
}

/// A transfer whose entry is not refused, damaged now and then.
fn entered(rng: &mut Rng) -> Transfer {
    let mut transfer = any(rng);
    if transfer.kind == Kind::Write {
        transfer.data = vec![8];
    }
    if rng.once_in(4) {
        damage(rng, &mut transfer);
    }
    transfer
}

/// Replies whose length, length field, complete size and N stand round each other and round the rules' limits.
pub fn edges(rng: &mut Rng) -> Case {
    let kind = rng.pick(&[Kind::Read, Kind::Read, Kind::Read, Kind::Write, Kind::List, Kind::Quantities]);
    let mut transfer = asked(rng, kind);
    transfer.room = if rng.once_in(30) { rng.pick(&[4096, 131_070, 131_071]) } else { rng.below(24) };
    match kind {
        Kind::Write => transfer.data = vec![8, 0],
        Kind::List => transfer.index = 1 + rng.below(5) as u16,
        _ => {}
    }
    for at in 0..1 + rng.below(4) {
        let reply = match transfer.is_information() {
            true => information_at_edges(rng, at == 0),
            false if transfer.is_read() && at > 0 => segment_at_edges(rng),
            false => sdo_at_edges(rng, &transfer),
        };
        transfer.replies.push(reply);
    }
    Case::Transfer(transfer)
}

fn round(rng: &mut Rng, value: usize) -> usize {
    (value + rng.below(5)).saturating_sub(2)
}

fn reply_length(rng: &mut Rng, named: usize) -> usize {
    match rng.below(40) {
        0 => 1485 + rng.below(3),
        1..=9 => rng.pick(&EDGES).min(1486),
        _ => round(rng, named).min(1486),
    }
}

fn sdo_at_edges(rng: &mut Rng, transfer: &Transfer) -> Vec<u8> {
    let length = if rng.once_in(4) { rng.pick(&EDGES) } else { 10 + rng.below(16) };
    let object = if rng.once_in(20) { (rng.word(), rng.byte()) } else { (transfer.index, transfer.named_sub()) };
    let specifier = if rng.once_in(12) { rng.below(8) as u8 } else { 2 + rng.below(2) as u8 };
    let byte_8 = rng.byte() & 0x1f & !(rng.byte() & 2) | specifier << 5;
    let data = length.saturating_sub(10);
    let around = rng.pick(&[data, transfer.room, 0]);
    let complete_size = if rng.once_in(12) { rng.next() as u32 } else { round(rng, around) as u32 };
    let reply = replies::sdo(rng, length, byte_8, object, &complete_size.to_le_bytes());
    as_long_as_named(rng, reply, 16 + data)
}

/// A segment whose chunk (of seven bytes the used ones) is there, or lacks a byte or two.
fn segment_at_edges(rng: &mut Rng) -> Vec<u8> {
    let length = if rng.once_in(4) { rng.pick(&EDGES) } else { rng.pick(&[2, 3, 4, 5, 9, 10, 10, 10, 11, 12, 17]) };
    let unused = rng.below(8);
    let specifier = if rng.once_in(8) { rng.below(8) as u8 } else { rng.pick(&[0, 3]) };
    let byte_8 = rng.byte() & 0x11 | (unused as u8) << 1 | specifier << 5;
    let chunk = if length == 10 { 7 - unused } else { length.saturating_sub(3) };
    let mut reply = replies::header(rng, length, 3, 3);
    reply.push(byte_8);
    as_long_as_named(rng, reply, 9 + chunk)
}

fn information_at_edges(rng: &mut Rng, first: bool) -> Vec<u8> {
    let length = if rng.once_in(4) { rng.pick(&EDGES) } else { 8 + rng.below(12) };
    let named = length.saturating_sub(8) + if first { 14 } else { 12 };
    let operation = if rng.once_in(6) { rng.below(10) as u8 } else { 2 };
    let mut reply = replies::header(rng, length, 3, 8);
    reply.extend_from_slice(&[operation | rng.byte() & 0x80, 0, 0, 0]);
    as_long_as_named(rng, reply, named)
}

/// The reply with about as many bytes as it names.
fn as_long_as_named(rng: &mut Rng, mut reply: Vec<u8>, named: usize) -> Vec<u8> {
    let wanted = reply_length(rng, named);
    let more = rng.bytes(wanted.saturating_sub(reply.len()));
    reply.extend_from_slice(&more);
    reply.truncate(wanted);
    unlist(rng, &mut reply);
    reply
}

/// Now and then another type or service.
fn unlist(rng: &mut Rng, reply: &mut [u8]) {
    if reply.len() > 7 && rng.once_in(12) {
        reply[5] = rng.byte();
    }
    if reply.len() > 7 && rng.once_in(12) {
        reply[7] = rng.byte();
    }
}

/// A number's read, into a buffer of its size or, once in four, of another.
pub fn numbers(rng: &mut Rng) -> Case {
    let number = rng.pick(&NUMBERS);
    let mut transfer = any(rng);
    while transfer.kind != Kind::Read {
        transfer = any(rng);
    }
    transfer.kind = Kind::ReadNumber(number);
    transfer.room = if rng.once_in(4) { rng.below(9) } else { size_of(number) };
    if rng.once_in(4) {
        damage(rng, &mut transfer);
    }
    Case::Transfer(transfer)
}

pub fn payload(rng: &mut Rng) -> Case {
    let length = if rng.once_in(10) { rng.below(300) } else { rng.below(14) };
    let mut payload = rng.bytes(length);
    if rng.once_in(3) {
        let byte = rng.pick(&[0x00, 0x7f, 0x80, 0xff]);
        payload.fill(byte);
    }
    Case::Payload(payload)
}

pub fn frame(rng: &mut Rng) -> Case {
    let counter = if rng.once_in(8) { rng.byte() } else { 1 + rng.below(7) as u8 };
    let size = match rng.below(8) {
        0 => rng.below(20),
        1 => 1480 + rng.below(12),
        2 => rng.below(1600),
        _ => 16,
    };
    let (index, sub) = (rng.word(), if rng.once_in(4) { None } else { Some(rng.byte()) });
    let request = match rng.below(5) {
        0 => Request::Upload { index, sub },
        1 => Request::Segment { toggle: rng.once_in(2) },
        2 => Request::List { kind: 1 + rng.below(5) as u8 },
        3 => Request::Quantities,
        _ => {
            let (mut data, len) = ((rng.next() as u32).to_le_bytes(), rng.below(5) as u8);
            if !rng.once_in(4) {
                data[usize::from(len)..].fill(0);
            }
            Request::Download { index, sub, data, len }
        }
    };
    Case::Frame(Frame { counter, request, size })
}

pub fn order(rng: &mut Rng) -> Case {
    let mut transfer = any(rng);
    if rng.once_in(2) {
        damage(rng, &mut transfer);
    }
    let mut text = entry_line(rng, &transfer).into_bytes();
    for reply in &transfer.replies {
        text.push(b'\n');
        text.extend_from_slice(hex::digits(reply).as_bytes());
    }
    if !rng.once_in(4) {
        text.push(b'\n');
    }
    while rng.once_in(4) {
        spoil(rng, &mut text);
    }
    Case::Order(Order::new(text))
}

fn entry_line(rng: &mut Rng, transfer: &Transfer) -> String {
    let index = hex::digits(&transfer.index.to_le_bytes());
    match (transfer.kind, transfer.sub) {
        _ if rng.once_in(12) => any_entry(rng),
        (Kind::List, _) => format!("04{:02x}", transfer.index),
        (Kind::Quantities, _) => "05".into(),
        (Kind::Write, sub) => format!("03{index}{:02x}{}", sub.unwrap_or(1), hex::digits(&transfer.data)),
        (_, None) => format!("02{index}"),
        (_, Some(sub)) => format!("01{index}{sub:02x}"),
    }
}

/// A form that is listed or not, of any length.
fn any_entry(rng: &mut Rng) -> String {
    let count = rng.below(10);
    format!("{:02x}{}", rng.below(8), hex::digits(&rng.bytes(count)))
}

/// A bad character, a line too long or odd, an empty line, lines joined or cut.
fn spoil(rng: &mut Rng, text: &mut Vec<u8>) {
    let at = rng.below(text.len() + 1);
    match rng.below(7) {
        0 => text.insert(at, rng.byte()),
        1 => text.insert(at, rng.pick(&[b'A', b'F', b'g', b'/', b':', b' ', b'\r', b'\t', b'`', 0, 255])),
        2 => drop(text.splice(at..at, std::iter::repeat(b'0').take(rng.pick(&[1, 2970, 2971, 2972, 2973, 2974, 6000])))),
        3 => text.insert(at, b'\n'),
        4 => text.truncate(at),
        5 if at < text.len() => drop(text.remove(at)),
        _ => text.extend_from_slice(b"\nzz"),
    }
}
