//! An emergency as ETG.1000.6 lays it out. Document 02, [5]: "Demand 2 for service 1 reads against the standard." The Rust comes to no
//! reading of it: an assertion panics first.
use crate::fields::{service, EMERGENCY};
use crate::ran::End;

/// "bytes 8-9, register 10, five data bytes"
const CODE: usize = 8;
const REGISTER: usize = 10;
const DATA: usize = 11;

/// "An emergency under 16 bytes is 20".
pub const LEAST: usize = 16;

pub fn is_emergency(reply: &[u8]) -> bool {
    reply.len() > 7 && service(reply) == EMERGENCY
}

/// What one of at least 16 bytes says, of a listed type.
pub fn told(reply: &[u8]) -> End {
    let byte = |place: usize| reply[DATA + place];
    End::Emergency {
        code: u16::from_le_bytes([reply[CODE], reply[CODE + 1]]),
        register: reply[REGISTER],
        data: [byte(0), byte(1), byte(2), byte(3), byte(4)],
    }
}
