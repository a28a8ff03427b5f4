//! The stand-in's rules, on shapes of its own: that the published shapes give document 01's frames is for ethercrab's tests.
#![allow(stable_features)]
#![feature(arbitrary_enum_discriminant)]
use ethercrab_wire::{EtherCrabWireRead, EtherCrabWireReadWrite, EtherCrabWireWrite, EtherCrabWireWriteSized, WireError};

#[derive(Debug, Copy, Clone, PartialEq, EtherCrabWireReadWrite)]
#[repr(u8)]
enum Listed {
    One = 0x01,
    Six = 0x06,
}

#[derive(Debug, Copy, Clone, PartialEq, EtherCrabWireReadWrite)]
#[repr(u16)]
enum Kept {
    Known = 0x0102,
    #[wire(catch_all)]
    Other(u16),
}

#[derive(Debug, Copy, Clone, PartialEq, EtherCrabWireReadWrite)]
#[wire(bytes = 5)]
struct Shape {
    #[wire(bits = 1)]
    flag: bool,
    #[wire(pre_skip = 2, bits = 3, post_skip = 2)]
    listed: Listed,
    #[wire(bytes = 2, post_skip_bytes = 1)]
    number: u16,
    #[wire(bytes = 1)]
    last: [u8; 1],
}

#[derive(Debug, Copy, Clone, PartialEq, EtherCrabWireRead)]
#[wire(bytes = 2)]
struct ReadAlone {
    #[wire(pre_skip = 4, bits = 12)]
    across: u16,
}

const SHAPE: Shape = Shape { flag: true, listed: Listed::Six, number: 0x1018, last: [0xab] };

#[test]
fn fields_lie_one_after_another_from_bit_0_and_skipped_bits_are_0() {
    assert_eq!(SHAPE.pack(), [0b0011_0001, 0x18, 0x10, 0x00, 0xab]);
}

#[test]
fn skipped_bits_and_bytes_behind_are_ignored_when_read() {
    assert_eq!(Shape::unpack_from_slice(&[0b1111_0111, 0x18, 0x10, 0xff, 0xab, 0xee]), Ok(SHAPE));
    assert_eq!(ReadAlone::unpack_from_slice(&[0x5f, 0x34]), Ok(ReadAlone { across: 0x0345 }));
}

#[test]
fn what_is_short_or_not_listed_is_refused() {
    assert_eq!(Shape::unpack_from_slice(&[0x31, 0, 0, 0]), Err(WireError::ReadBufferTooShort));
    assert_eq!(Shape::unpack_from_slice(&[0x10, 0, 0, 0, 0]), Err(WireError::InvalidValue));
    assert_eq!(Kept::unpack_from_slice(&[2, 1]), Ok(Kept::Known));
    assert_eq!(Kept::unpack_from_slice(&[2, 2]), Ok(Kept::Other(0x0202)));
    assert_eq!(u16::from(Kept::Other(7)), 7);
}

#[test]
fn a_frame_stands_at_the_front_and_the_rest_is_left_alone() {
    let mut buf = [0xee; 7];
    assert_eq!(SHAPE.pack_to_slice(&mut buf), Ok(&[0x31, 0x18, 0x10, 0, 0xab][..]));
    assert_eq!(buf[5..], [0xee; 2]);
    assert_eq!(SHAPE.pack_to_slice(&mut buf[..4]), Err(WireError::WriteBufferTooShort));
}

#[test]
fn numbers_are_low_byte_first_in_twos_complement() {
    assert_eq!(u32::unpack_from_slice(&[0x78, 0x56, 0x34, 0x12, 0xff]), Ok(0x1234_5678));
    assert_eq!(i16::unpack_from_slice(&[0x00, 0x80]), Ok(-32_768));
    assert_eq!(i32::unpack_from_slice(&[0xff; 3]), Err(WireError::ReadBufferTooShort));
}

#[test]
fn a_vector_takes_whole_elements_and_as_many_as_it_holds() {
    let words = heapless::Vec::<u16, 2>::unpack_from_slice(&[1, 0, 2, 0]).unwrap();
    assert_eq!(*words, [1, 2]);
    assert_eq!(heapless::Vec::<u16, 2>::unpack_from_slice(&[1, 0, 2]), Err(WireError::ReadBufferTooShort));
    assert_eq!(heapless::Vec::<u16, 2>::unpack_from_slice(&[0; 6]), Err(WireError::InvalidValue));
}
