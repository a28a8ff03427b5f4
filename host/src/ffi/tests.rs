use super::*;
use core::mem::{align_of, size_of};

/// The header beside which the archive is built.
const HEADER: &str = include_str!(concat!(env!("CARGO_MANIFEST_DIR"), "/../include/coe_desk.h"));

#[test]
fn the_record_is_the_headers() {
    assert_eq!(align_of::<Record>(), align_of::<u64>());
    let words = size_of::<Record>() / size_of::<u64>();
    assert!(HEADER.contains(&std::format!("uint64_t opaque[{words}];")), "coe_desk is not of {words} words");
}

#[test]
fn answers_are_of_the_sizes_that_cross() {
    let sizes = [size_of::<Answer>(), size_of::<Unsigned>(), size_of::<Signed>(), size_of::<Item>(), size_of::<Quantities>()];
    assert_eq!(sizes, [24, 8, 8, 16, 12]);
}

#[test]
fn an_answer_crosses_whole() {
    let hot = b"\x0a\0\0\0\0\x13\0\x10\x10\x42\x08\x01\x02\x03\x04\x05";
    let emergency = Answer { number: 0x21, sub: 8, index: 0, code: 0x4210, length: 0, data: 0x05_0403_0201 };
    assert_eq!([1, 3, 7].map(|kind| judge(kind, 0x1018, 4, 0, hot, &mut [])), [emergency; 3]);
    let abort = b"\x0a\0\0\0\0\x13\0\x20\x80\x18\x10\x04\x11\0\x09\x06";
    let aborted = Answer { number: 0x22, sub: 4, index: 0x1018, code: 0x0609_0011, length: 0, data: 0 };
    assert_eq!([1, 3, 7].map(|kind| judge(kind, 0x1018, 4, 0, abort, &mut [])), [aborted; 3]);
    let upload = b"\x0a\0\0\0\0\x13\0\x30\x43\x18\x10\x04\x78\x56\x34\x12";
    let done = Answer { number: 0x00, sub: 0, index: 0, code: 0, length: 4, data: 0 };
    assert_eq!(judge(1, 0x1018, 4, 0, upload, &mut [0; 4]), done);
}

#[test]
fn every_function_of_the_header_is_declared() {
    let declared = include_str!("declared.rs");
    let functions = HEADER.lines().filter(|line| !line.starts_with(' ') && line.contains('(') && line.starts_with(|c| c != '/'));
    let mut count = 0;
    for line in functions.filter(|line| line.contains("coe_")) {
        let name = line.split('(').next().and_then(|front| front.rsplit([' ', '*']).next()).unwrap_or(line);
        assert!(declared.contains(&std::format!("pub fn {name}(")), "{name} is in the header alone");
        count += 1;
    }
    assert_eq!(count, declared.matches("pub fn ").count());
}

/// Every seat is free, the first to enter is the head, and its frame has counter 1.
fn expect_fresh(record: &mut Record) {
    let mut frame = [0; 16];
    for seat in 0..8 {
        assert_eq!(record.enter(seat, 1, 0x1018, 4, &[]).number, 0x01);
    }
    assert_eq!(record.send(0, &mut frame).number, 0x02);
    assert_eq!(frame[5], 0x13);
}

#[test]
fn a_seat_above_7_is_10_at_every_call() {
    let mut record = Record::fresh();
    let mut buffer = [0xa5; 16];
    for seat in 8..=255 {
        assert_eq!(record.enter(seat, 1, 0x1018, 4, &[]).number, 0x10);
        assert_eq!(record.enter_within(seat, 0, 0, 0, &[], 0).number, 0x10);
        assert_eq!(record.send(seat, &mut buffer).number, 0x10);
        assert_eq!(record.receive(seat, &[], &mut buffer).number, 0x10);
        assert_eq!(record.leave(seat).number, 0x10);
    }
    assert_eq!(buffer, [0xa5; 16]);
    expect_fresh(&mut record);
}

#[test]
fn nine_bytes_are_a_reply_for_a_segment_alone() {
    let reply = b"\x03\0\0\0\0\x13\0\x30\x01";
    let numbers = [1, 3, 4, 7, 8].map(|kind| judge(kind, 0, 0, 0, reply, &mut []).number);
    assert_eq!(numbers, [0x20, 0x20, 0x20, 0x00, 0x20]);
}

#[test]
fn what_the_types_exclude_is_15() {
    let mut record = Record::fresh();
    let mut buffer = [0xa5; 16];
    for kind in [0, 7, 255] {
        assert_eq!(record.enter(0, kind, 1, 0, &[1]).number, 0x15);
    }
    for list_kind in [0, 6, 65535] {
        assert_eq!(record.enter(0, 4, list_kind, 0, &[]).number, 0x15);
    }
    assert_eq!(list_frame(1, 6, &mut buffer), 0x15);
    assert_eq!(judge(2, 0, 0, 0, &[], &mut buffer).number, 0x15);
    assert_eq!(buffer, [0xa5; 16]);
    expect_fresh(&mut record);
}
