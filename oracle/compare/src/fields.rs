//! Fields of a reply, where document 01 lays them.

pub const EMERGENCY: u8 = 1;
pub const ABORT: u8 = 4;

pub fn length_field(reply: &[u8]) -> usize {
    usize::from(reply[0]) | usize::from(reply[1]) << 8
}

pub fn service(reply: &[u8]) -> u8 {
    reply[7] >> 4
}

pub fn specifier(reply: &[u8]) -> u8 {
    reply[8] >> 5
}
