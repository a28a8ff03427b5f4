//! Stand-in for the crate ethercrab_wire: written from the attributes and calls in ethercrab's src/mailbox and from document 01's
//! layouts, not from the published crate, which is not at hand. OPEN marks what these texts leave open.
mod bits;
mod plain;

pub use bits::{get_bits, put_bits};
pub use ethercrab_wire_derive::{EtherCrabWireRead, EtherCrabWireReadWrite};

#[derive(Debug, Copy, Clone, PartialEq, Eq)]
pub enum WireError {
    ReadBufferTooShort,
    WriteBufferTooShort,
    InvalidValue,
}

pub trait EtherCrabWireSized {
    const PACKED_LEN: usize;
    type Buffer: AsRef<[u8]> + AsMut<[u8]>;

    fn buffer() -> Self::Buffer;
}

pub trait EtherCrabWireRead: Sized {
    fn unpack_from_slice(buf: &[u8]) -> Result<Self, WireError>;
}

pub trait EtherCrabWireWrite {
    fn packed_len(&self) -> usize;

    /// Writes every byte of `buf`, which has `packed_len` of them.
    fn pack_exact(&self, buf: &mut [u8]);

    fn pack_to_slice<'buf>(&self, buf: &'buf mut [u8]) -> Result<&'buf [u8], WireError> {
        let buf = buf.get_mut(0..self.packed_len()).ok_or(WireError::WriteBufferTooShort)?;
        self.pack_exact(buf);
        Ok(buf)
    }
}

pub trait EtherCrabWireReadWrite: EtherCrabWireRead + EtherCrabWireWrite {}
impl<T: EtherCrabWireRead + EtherCrabWireWrite> EtherCrabWireReadWrite for T {}

pub trait EtherCrabWireReadSized: EtherCrabWireRead + EtherCrabWireSized {}
impl<T: EtherCrabWireRead + EtherCrabWireSized> EtherCrabWireReadSized for T {}

pub trait EtherCrabWireWriteSized: EtherCrabWireWrite + EtherCrabWireSized {
    fn pack(&self) -> Self::Buffer {
        let mut buf = Self::buffer();
        self.pack_exact(buf.as_mut());
        buf
    }
}
impl<T: EtherCrabWireWrite + EtherCrabWireSized> EtherCrabWireWriteSized for T {}
