//! Damage to the replies of a good conversation.
use super::replies::set_length;
use crate::rng::Rng;
use crate::transfer::Transfer;

/// Lengths at which a rule changes, of replies and of length fields.
pub const EDGES: [usize; 26] =
    [0, 1, 2, 3, 4, 7, 8, 9, 10, 11, 12, 13, 14, 15, 16, 17, 19, 20, 21, 24, 255, 256, 1476, 1480, 1486, 65535];

pub fn damage(rng: &mut Rng, transfer: &mut Transfer) {
    if transfer.replies.is_empty() {
        return;
    }
    let at = rng.below(transfer.replies.len());
    match rng.below(12) {
        0 => {
            let other = rng.below(transfer.replies.len());
            transfer.replies.swap(at, other);
        }
        1 => drop(transfer.replies.remove(at)),
        2 => {
            let again = transfer.replies[at].clone();
            transfer.replies.insert(at, again);
        }
        _ => damage_reply(rng, &mut transfer.replies[at]),
    }
}

fn damage_reply(rng: &mut Rng, reply: &mut Vec<u8>) {
    let (front, len) = (reply.len().min(16), reply.len());
    match rng.below(10) {
        0 | 1 => reply.truncate(rng.pick(&EDGES).min(1486)),
        2 => reply.truncate(len.saturating_sub(1 + rng.below(3))),
        3 => {
            let count = 1 + rng.below(8);
            let more = rng.bytes(count);
            reply.extend_from_slice(&more);
            reply.truncate(1486);
        }
        4 | 5 if len >= 2 => {
            let edge = rng.pick(&EDGES);
            set_length(reply, edge)
        }
        6 if len >= 2 => {
            let field = usize::from(reply[0]) | usize::from(reply[1]) << 8;
            let moved = field + rng.below(7);
            set_length(reply, moved.saturating_sub(3))
        }
        7 if front > 0 => reply[rng.below(front)] = rng.byte(),
        _ if front > 0 => reply[rng.below(front)] ^= 1 << rng.below(8),
        _ => reply.push(rng.byte()),
    }
}
