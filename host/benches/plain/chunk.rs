//! A chunk of a reply, and its place in the data buffer.
use super::numbered;
use crate::ffi::Answer;

/// The `len` bytes of the reply from byte `from` on, which go to byte `at` of the data buffer.
#[derive(Debug, Clone, Copy)]
pub struct Chunk {
    pub from: u16,
    pub len: u16,
    pub at: u32,
}

impl Chunk {
    pub fn none(at: u32) -> Chunk {
        Chunk { from: 0, len: 0, at }
    }

    /// The chunk where its bytes are in the reply; an empty one always is.
    pub fn there(self, reply: &[u8]) -> Result<Chunk, Answer> {
        if self.len > 0 && reply.len() < usize::from(self.from) + usize::from(self.len) {
            return Err(numbered(0x25));
        }
        Ok(self)
    }

    pub fn fits(self, room: usize) -> Result<Chunk, Answer> {
        match self.at.checked_add(self.len.into()) {
            Some(end) if end as usize <= room => Ok(self),
            _ => Err(numbered(0x25)),
        }
    }

    /// The sum of the chunks, this one included.
    pub fn end(self) -> u32 {
        self.at + u32::from(self.len)
    }

    /// As many of the bytes as there is room for.
    pub fn store(self, reply: &[u8], data: &mut [u8]) {
        if self.len == 0 {
            return;
        }
        if let Some(room) = data.get_mut(self.at as usize..) {
            let (from, len) = (usize::from(self.from), usize::from(self.len).min(room.len()));
            room[..len].copy_from_slice(&reply[from..from + len]);
        }
    }
}
