//! Long transfers, one by one: full buffers, full lists, and the last reply of the default budget and of the greatest.
use super::replies;
use crate::case::Case;
use crate::rng::Rng;
use crate::transfer::{Kind, Transfer, DEFAULT_BUDGET};
use coe_desk::{LONGEST_DATA, LONGEST_REPLY};

type Make = fn(&mut Rng) -> Transfer;

const ALL: [Make; 23] = [
    |rng| list(rng, 131_068),
    |rng| list(rng, 131_069),
    |rng| list(rng, 131_070),
    list_without_room,
    |rng| segmented(rng, 4096, 4096, LONGEST_CHUNK),
    |rng| segmented(rng, 4096, 4097, LONGEST_CHUNK),
    |rng| Transfer { budget: 2, ..segmented(rng, 4096, 4096, LONGEST_CHUNK) },
    |rng| segmented(rng, 131_070, 131_070, LONGEST_CHUNK),
    |rng| segmented(rng, 300, 300, 7),
    |rng| segmented(rng, 300, 305, 7),
    |rng| segmented(rng, 65_536, 65_536, 1000),
    |rng| normal(rng, LONGEST_REPLY - 1),
    |rng| normal(rng, LONGEST_REPLY),
    |rng| normal(rng, LONGEST_REPLY + 1),
    |_| Transfer { room: LONGEST_DATA + 1, replies: vec![Vec::new()], ..asked(0) },
    |_| Transfer { budget: DEFAULT_BUDGET, ..segments(1_023) },
    |_| Transfer { budget: DEFAULT_BUDGET, ..segments(1_024) },
    |_| Transfer { budget: DEFAULT_BUDGET, ..waits(1_023) },
    |_| Transfer { budget: DEFAULT_BUDGET, ..waits(1_024) },
    |_| Transfer { budget: 65_535, ..segments(65_534) },
    |_| Transfer { budget: 65_535, ..segments(65_535) },
    |_| Transfer { budget: 65_535, ..waits(65_534) },
    |_| Transfer { budget: 65_535, ..waits(65_535) },
];

pub const COUNT: u64 = ALL.len() as u64;

pub fn case(rng: &mut Rng, place: u64) -> Case {
    Case::Transfer(ALL[place as usize](rng))
}

/// What a segment reply of the longest length holds.
const LONGEST_CHUNK: usize = LONGEST_REPLY - 9;

const OBJECT: (u16, u8) = (0x1018, 1);

fn asked(room: usize) -> Transfer {
    Transfer::new(Kind::Read, OBJECT.0, Some(OBJECT.1), room)
}

fn list(rng: &mut Rng, total: usize) -> Transfer {
    let mut transfer = Transfer::new(Kind::List, 1, Some(0), LONGEST_DATA);
    let data = rng.bytes(total);
    let (first, rest) = data.split_at(LONGEST_REPLY - 14);
    transfer.replies.push(replies::fragment(rng, first, Some(1), true, 0));
    let fragments: Vec<&[u8]> = rest.chunks(LONGEST_REPLY - 12).collect();
    for (at, data) in fragments.iter().enumerate() {
        transfer.replies.push(replies::fragment(rng, data, None, at + 1 < fragments.len(), 0));
    }
    transfer
}

/// One byte more than the longest list.
fn list_without_room(rng: &mut Rng) -> Transfer {
    let mut transfer = list(rng, LONGEST_DATA);
    if let Some(last) = transfer.replies.last_mut() {
        last[8] |= 0x80;
    }
    transfer.replies.push(replies::fragment(rng, &[7], None, false, 0));
    transfer
}

fn segmented(rng: &mut Rng, room: usize, sum: usize, step: usize) -> Transfer {
    let mut transfer = asked(room);
    let data = rng.bytes(sum);
    transfer.replies.push(replies::normal(rng, OBJECT, room as u32, &[]));
    let chunks: Vec<&[u8]> = data.chunks(step).collect();
    for (at, data) in chunks.iter().enumerate() {
        transfer.replies.push(replies::segment(rng, data, at + 1 == chunks.len(), at % 2 == 1));
    }
    transfer
}

fn normal(rng: &mut Rng, reply_len: usize) -> Transfer {
    let mut transfer = asked(reply_len - 16);
    let data = rng.bytes(reply_len - 16);
    transfer.replies.push(replies::normal(rng, OBJECT, data.len() as u32, &data));
    transfer
}

/// So many replies before the last segment, the announcement and empty segments.
fn segments(before: usize) -> Transfer {
    let segment = |last: u8| [&b"\x03\0\0\0\0\x13\0\x30"[..], &[0x60 | last]].concat();
    let mut transfer = asked(1);
    transfer.replies = vec![segment(0); before + 1];
    transfer.replies[0] = b"\x0a\0\0\0\0\x13\0\x30\x41\x18\x10\x01\x01\0\0\0".to_vec();
    transfer.replies[before] = segment(1);
    transfer
}

/// So many replies of another operation before the list's.
fn waits(before: usize) -> Transfer {
    let mut transfer = Transfer::new(Kind::List, 1, Some(0), 4);
    transfer.replies = vec![b"\x08\0\0\0\0\x13\0\x80\x07\0\0\0".to_vec(); before];
    transfer.replies.push(b"\x08\0\0\0\0\x13\0\x80\x02\0\0\0\x01\0".to_vec());
    transfer
}
