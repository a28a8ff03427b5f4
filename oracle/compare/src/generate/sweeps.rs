//! Sweeps: every combination of a few fields of one short reply, in each situation in which a reply is judged.
use super::replies::set_length;
use crate::case::Case;
use crate::fields::EMERGENCY;
use crate::rng::Rng;
use crate::transfer::{Kind, Transfer};

const SITUATIONS: u64 = 5;
const HEAD_LENGTHS: u64 = 22;
const FIELD_LENGTHS: u64 = 24;
const SHORTEST: u64 = 9;

/// Reply lengths 0 to 21, every type, service and byte 8.
pub const HEADS: u64 = SITUATIONS * HEAD_LENGTHS * 16 * 16 * 256;

/// Reply lengths 9 to 32, length fields 0 to 23, every byte 8.
pub const LENGTHS: u64 = SITUATIONS * FIELD_LENGTHS * FIELD_LENGTHS * 256;

/// The high halves of ETG.1000.6, Table 41, each with the low halves 0 to 0x4f.
pub const ABORT_CODES: u64 = 0x50 * ABORT_CLASSES.len() as u64;

const ABORT_CLASSES: [u32; 10] = [0x0503, 0x0504, 0x0601, 0x0602, 0x0604, 0x0606, 0x0607, 0x0609, 0x060a, 0x0800];

/// Where case `number` of a sweep of `limit` stands: each place once, and neighbours far apart.
pub fn place(seed: u64, number: u64, limit: u64) -> u64 {
    let mut stride = (limit as f64 * 0.618) as u64 | 1;
    while common_divisor(stride, limit) != 1 {
        stride += 2;
    }
    ((u128::from(number) * u128::from(stride) + u128::from(seed)) % u128::from(limit)) as u64
}

fn common_divisor(a: u64, b: u64) -> u64 {
    if b == 0 {
        a
    } else {
        common_divisor(b, a % b)
    }
}

/// Takes the next field's value off the place.
fn take(place: &mut u64, values: u64) -> u64 {
    let value = *place % values;
    *place /= values;
    value
}

/// A transfer that has come to the situation, with N round what the reply can bring.
fn situation(rng: &mut Rng, number: u64) -> Transfer {
    let segments_follow = b"\x0a\0\0\0\0\x13\0\x30\x41\x18\x10\x01\x09\0\0\0".to_vec();
    let list_goes_on = b"\x0a\0\0\0\0\x13\0\x80\x82\0\x01\0\x01\0\0\x10".to_vec();
    let mut transfer = match number {
        0 | 1 => Transfer::new(Kind::Read, 0x1018, Some(1), 0),
        2 => Transfer { data: vec![8], ..Transfer::new(Kind::Write, 0x1018, Some(1), 0) },
        _ => Transfer::new(Kind::List, 1, Some(0), 0),
    };
    transfer.room = rng.pick(&[0, 1, 4, 8, 9, 10, 20, 64]);
    match number {
        1 => {
            transfer.room = transfer.room.max(9);
            transfer.replies.push(segments_follow);
        }
        4 => {
            transfer.room = transfer.room.max(2);
            transfer.replies.push(list_goes_on);
        }
        _ => {}
    }
    transfer
}

/// A reply about 0x1018:01 whose complete size is small. In a segment these seven bytes are data, and an emergency has others there.
fn reply(rng: &mut Rng, length: u64) -> Vec<u8> {
    let mut reply = b"\x0a\0\0\0\0\x13\0\x30\0\x18\x10\x01".to_vec();
    reply.extend_from_slice(&[rng.pick(&[0, 1, 2, 4, 8, 9]), 0, 0, 0]);
    let more = rng.bytes(20);
    reply.extend_from_slice(&more);
    reply.truncate(length as usize);
    reply
}

fn put(reply: &mut [u8], at: usize, byte: u8) {
    if let Some(place) = reply.get_mut(at) {
        *place = byte;
    }
}

pub fn head(rng: &mut Rng, mut place: u64) -> Case {
    let byte_8 = take(&mut place, 256) as u8;
    let service = take(&mut place, 16) as u8;
    let kind = take(&mut place, 16) as u8;
    let length = take(&mut place, HEAD_LENGTHS);
    let mut transfer = situation(rng, place);
    let mut reply = reply(rng, length);
    if reply.len() >= 2 {
        let field = rng.pick(&[2, 3, 7, 8, 9, 10, 10, 10, 11, 12, 13, 17]);
        set_length(&mut reply, field);
    }
    put(&mut reply, 5, kind | rng.byte() & 0xf0);
    put(&mut reply, 7, service << 4 | rng.byte() & 0x0f);
    put(&mut reply, 8, byte_8);
    if service == EMERGENCY {
        (9..16).for_each(|at| put(&mut reply, at, rng.byte()));
    }
    transfer.replies.push(reply);
    Case::Transfer(transfer)
}

pub fn length(rng: &mut Rng, mut place: u64) -> Case {
    let byte_8 = take(&mut place, 256) as u8;
    let field = take(&mut place, FIELD_LENGTHS) as usize;
    let length = SHORTEST + take(&mut place, FIELD_LENGTHS);
    let mut transfer = situation(rng, place);
    let mut reply = reply(rng, length);
    set_length(&mut reply, field);
    put(&mut reply, 8, byte_8);
    transfer.replies.push(reply);
    Case::Transfer(transfer)
}

pub fn abort_code(mut place: u64) -> Case {
    let low = take(&mut place, 0x50) as u32;
    Case::AbortCode(ABORT_CLASSES[place as usize] << 16 | low)
}

#[cfg(test)]
mod tests {
    use super::*;
    use std::collections::HashSet;

    #[test]
    fn a_sweep_has_each_place_once() {
        for (seed, limit) in [(0, 1), (7, 12), (1, 360), (99, 1001), (u64::MAX, 64)] {
            let places: HashSet<u64> = (0..limit).map(|number| place(seed, number, limit)).collect();
            assert_eq!(places.len() as u64, limit);
            assert!(places.iter().all(|place| *place < limit));
        }
    }
}
