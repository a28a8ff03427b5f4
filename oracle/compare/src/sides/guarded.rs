//! A buffer to lend, with bytes before and behind it that no call may touch.
use crate::transfer::FILL;

const GUARD: usize = 24;
const GUARD_BYTE: u8 = 0x5a;

pub struct Guarded {
    bytes: Vec<u8>,
}

impl Guarded {
    pub fn new(len: usize) -> Guarded {
        let mut bytes = vec![GUARD_BYTE; GUARD + len + GUARD];
        bytes[GUARD..GUARD + len].fill(FILL);
        Guarded { bytes }
    }

    pub fn lent(&mut self) -> &mut [u8] {
        let end = self.bytes.len() - GUARD;
        &mut self.bytes[GUARD..end]
    }

    /// The lent bytes, if nothing around them was touched.
    pub fn inside(&self, what: &str) -> Result<&[u8], String> {
        let end = self.bytes.len() - GUARD;
        let outside = self.bytes[..GUARD].iter().chain(&self.bytes[end..]);
        if outside.clone().any(|&byte| byte != GUARD_BYTE) {
            return Err(format!("bytes around the {what} were touched"));
        }
        Ok(&self.bytes[GUARD..end])
    }
}
