//! Numbers, flags, bytes and vectors of them.
use crate::{EtherCrabWireRead, EtherCrabWireReadSized, EtherCrabWireSized, EtherCrabWireWrite, WireError};
use std::mem::size_of;

macro_rules! number {
    ($($t:ty),*) => {$(
        impl EtherCrabWireSized for $t {
            const PACKED_LEN: usize = size_of::<$t>();
            type Buffer = [u8; size_of::<$t>()];

            fn buffer() -> Self::Buffer {
                [0; size_of::<$t>()]
            }
        }

        impl EtherCrabWireRead for $t {
            fn unpack_from_slice(buf: &[u8]) -> Result<Self, WireError> {
                <[u8; size_of::<$t>()]>::unpack_from_slice(buf).map(<$t>::from_le_bytes)
            }
        }

        impl EtherCrabWireWrite for $t {
            fn packed_len(&self) -> usize {
                size_of::<$t>()
            }

            fn pack_exact(&self, buf: &mut [u8]) {
                buf.copy_from_slice(&self.to_le_bytes())
            }
        }
    )*};
}
number!(u8, u16, u32, i8, i16, i32);

impl EtherCrabWireSized for bool {
    const PACKED_LEN: usize = 1;
    type Buffer = [u8; 1];

    fn buffer() -> [u8; 1] {
        [0]
    }
}

/// In the published files a flag is one bit.
impl EtherCrabWireRead for bool {
    fn unpack_from_slice(buf: &[u8]) -> Result<Self, WireError> {
        Ok(*buf.first().ok_or(WireError::ReadBufferTooShort)? != 0)
    }
}

impl EtherCrabWireWrite for bool {
    fn packed_len(&self) -> usize {
        1
    }

    fn pack_exact(&self, buf: &mut [u8]) {
        buf[0] = u8::from(*self)
    }
}

impl<const N: usize> EtherCrabWireSized for [u8; N] {
    const PACKED_LEN: usize = N;
    type Buffer = [u8; N];

    fn buffer() -> [u8; N] {
        [0; N]
    }
}

impl<const N: usize> EtherCrabWireRead for [u8; N] {
    fn unpack_from_slice(buf: &[u8]) -> Result<Self, WireError> {
        let mut out = [0; N];
        out.copy_from_slice(buf.get(0..N).ok_or(WireError::ReadBufferTooShort)?);
        Ok(out)
    }
}

impl<const N: usize> EtherCrabWireWrite for [u8; N] {
    fn packed_len(&self) -> usize {
        N
    }

    fn pack_exact(&self, buf: &mut [u8]) {
        buf.copy_from_slice(self)
    }
}

impl EtherCrabWireWrite for [u8] {
    fn packed_len(&self) -> usize {
        self.len()
    }

    fn pack_exact(&self, buf: &mut [u8]) {
        buf.copy_from_slice(self)
    }
}

impl<T: EtherCrabWireWrite + ?Sized> EtherCrabWireWrite for &T {
    fn packed_len(&self) -> usize {
        (**self).packed_len()
    }

    fn pack_exact(&self, buf: &mut [u8]) {
        (**self).pack_exact(buf)
    }
}

/// OPEN: bytes that make no whole element. Here they are refused, as document 01 says of an odd list; the published crate may drop them.
impl<T: EtherCrabWireReadSized, const N: usize> EtherCrabWireRead for heapless::Vec<T, N> {
    fn unpack_from_slice(buf: &[u8]) -> Result<Self, WireError> {
        let elements = buf.chunks_exact(T::PACKED_LEN);
        if !elements.remainder().is_empty() {
            return Err(WireError::ReadBufferTooShort);
        }
        let mut out = heapless::Vec::new();
        for element in elements {
            out.push(T::unpack_from_slice(element)?).map_err(|_| WireError::InvalidValue)?;
        }
        Ok(out)
    }
}
