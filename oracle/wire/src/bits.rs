//! Fields of bits: bit 0 of byte 0 first, low bits first.

/// Bits `at..at + len` of `buf`, in the low bits of `out`, whose other bits become 0.
pub fn get_bits(buf: &[u8], at: usize, len: usize, out: &mut [u8]) {
    if at % 8 == 0 && len % 8 == 0 {
        out.copy_from_slice(&buf[at / 8..(at + len) / 8]);
        return;
    }
    out.fill(0);
    for i in 0..len {
        out[i / 8] |= (buf[(at + i) / 8] >> ((at + i) % 8) & 1) << (i % 8);
    }
}

/// The low `len` bits of `from`, whose missing bytes are 0, at bits `at..at + len` of `buf`, which are 0. Higher bits are dropped:
/// OPEN, and reached by size 4 in two bits alone, a download of no byte.
pub fn put_bits(buf: &mut [u8], at: usize, len: usize, from: &[u8]) {
    for i in 0..len {
        buf[(at + i) / 8] |= (from.get(i / 8).map_or(0, |byte| byte >> (i % 8)) & 1) << ((at + i) % 8);
    }
}
