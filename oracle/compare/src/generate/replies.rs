//! Well-formed replies of a drive, with what the rules ignore set by chance.
use crate::rng::Rng;

pub fn set_length(reply: &mut [u8], length: usize) {
    reply[..2].copy_from_slice(&(length as u16).to_le_bytes());
}

/// The first eight bytes. Address, priority, counter and the CoE number are ignored: they are 0, or once in four anything.
pub fn header(rng: &mut Rng, length: usize, kind: u8, service: u8) -> Vec<u8> {
    let mut header = if rng.once_in(4) { rng.bytes(8) } else { vec![0; 8] };
    set_length(&mut header, length);
    header[5] = header[5] & 0xf0 | kind;
    header[7] = header[7] & 0x0f | service << 4;
    header
}

/// An SDO reply with this byte 8, of this object.
pub fn sdo(rng: &mut Rng, length: usize, byte_8: u8, object: (u16, u8), rest: &[u8]) -> Vec<u8> {
    let mut reply = header(rng, length, 3, 3);
    reply.push(byte_8);
    reply.extend_from_slice(&object.0.to_le_bytes());
    reply.push(object.1);
    reply.extend_from_slice(rest);
    reply
}

pub fn expedited(rng: &mut Rng, object: (u16, u8), size: usize) -> Vec<u8> {
    let data = rng.bytes(4);
    let indicator = u8::from(!rng.once_in(4));
    sdo(rng, 10, 0x42 | indicator | ((4 - size) as u8) << 2, object, &data)
}

/// A normal upload of these data, or the first reply of a segmented one where `complete_size` is above their length.
pub fn normal(rng: &mut Rng, object: (u16, u8), complete_size: u32, data: &[u8]) -> Vec<u8> {
    let mut rest = complete_size.to_le_bytes().to_vec();
    rest.extend_from_slice(data);
    sdo(rng, 10 + data.len(), 0x41, object, &rest)
}

pub fn downloaded(rng: &mut Rng, object: (u16, u8)) -> Vec<u8> {
    sdo(rng, 10, 0x60, object, &[0; 4])
}

pub fn aborted(rng: &mut Rng, object: (u16, u8), code: u32) -> Vec<u8> {
    sdo(rng, 10, 0x80, object, &code.to_le_bytes())
}

/// An emergency as ETG.1000.6 lays it out: code, register and data from byte 8 on, all of them anything. Once in two it has its 16 bytes;
/// the others are cut, or there are more behind it.
pub fn emergency(rng: &mut Rng) -> Vec<u8> {
    let length = if rng.once_in(2) { 16 } else { 8 + rng.below(14) };
    let mut reply = header(rng, 10, 3, 1);
    let rest = rng.bytes(length - reply.len());
    reply.extend_from_slice(&rest);
    reply
}

/// A segment as ETG.1000.6 lays it out, its data from byte 9 on. Below seven bytes it is filled up to seven, with the unused count, or
/// once in three it is as short as its data; once in four of the filled ones what is unused is not sent.
pub fn segment(rng: &mut Rng, data: &[u8], last: bool, toggle: bool) -> Vec<u8> {
    let filled = data.len() < 7 && !rng.once_in(3);
    let unused = if filled {
        7 - data.len()
    } else if data.len() == 7 {
        0
    } else {
        rng.below(8)
    };
    let specifier = if rng.once_in(3) { 0 } else { 3 };
    let byte_8 = u8::from(last) | (unused as u8) << 1 | u8::from(toggle) << 4 | specifier << 5;
    let named = if filled { 7 } else { data.len() };
    let mut reply = header(rng, 3 + named, 3, 3);
    reply.push(byte_8);
    reply.extend_from_slice(data);
    if filled && !rng.once_in(4) {
        reply.resize(9 + named, 0xee);
    }
    reply
}

/// A fragment of a list, of which the first has the list kind before its data.
pub fn fragment(rng: &mut Rng, data: &[u8], kind: Option<u16>, incomplete: bool, left: u16) -> Vec<u8> {
    let mut reply = header(rng, 8 + data.len(), 3, 8);
    reply.extend_from_slice(&[2 | u8::from(incomplete) << 7, 0]);
    reply.extend_from_slice(&left.to_le_bytes());
    if let Some(kind) = kind {
        reply.extend_from_slice(&kind.to_le_bytes());
    }
    reply.extend_from_slice(data);
    reply
}

/// A reply of the information service that is no fragment.
pub fn other_operation(rng: &mut Rng) -> Vec<u8> {
    let operation = rng.pick(&[1, 3, 4, 5, 6, 7]);
    let count = rng.below(8);
    let rest = rng.bytes(count);
    let mut reply = header(rng, 8 + count, 3, 8);
    reply.extend_from_slice(&[operation | rng.byte() & 0x80, 0, 0, 0]);
    reply.extend_from_slice(&rest);
    reply
}
