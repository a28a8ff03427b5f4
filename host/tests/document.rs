//! The specification's examples, and those of its requests.
use coe_desk::{frames, judge, reads, Answer, Desk, Expected, Judged, ListKind, Order, Refusal, Seat, SubIndex};

const SEAT: Seat = Seat::ALL[0];
const UPLOAD: Expected = Expected::Upload { index: 0x1018, sub_index: SubIndex::Index(1) };
const DOWNLOAD: Expected = Expected::Download { index: 0x1018, sub_index: SubIndex::Index(1) };
const LIST: Expected = Expected::List { begun: false, earlier: 0 };
const SEGMENT: Expected = Expected::Segment { earlier: 0 };

fn bytes(text: &str) -> Vec<u8> {
    (0..text.len()).step_by(2).map(|at| u8::from_str_radix(&text[at..at + 2], 16).unwrap()).collect()
}

/// The text's bytes, and zeros up to the frame buffer's length.
fn frame(text: &str) -> Vec<u8> {
    let mut frame = bytes(text);
    frame.resize(20, 0);
    frame
}

#[test]
fn requests() {
    let mut buffer = [0xff; 20];
    frames::upload(7, 0x1018, SubIndex::Complete, &mut buffer).unwrap();
    assert_eq!(buffer[..], frame("0a0000000073002050181001"));
    frames::download(2, 0x6060, 0, &[8], &mut buffer).unwrap();
    assert_eq!(buffer[..], frame("0a000000002300202f60600008000000"));
    frames::segment(3, true, &mut buffer).unwrap();
    assert_eq!(buffer[..], frame("0a0000000033002070"));
    frames::object_list(1, ListKind::All, &mut buffer).unwrap();
    assert_eq!(buffer[..], frame("0800000000130080010000000100"));
    frames::quantities(1, &mut buffer).unwrap();
    assert_eq!(buffer[..], frame("0800000000130080010000000000"));
}

#[test]
fn the_desk_sends_what_the_writers_write() {
    let write = |writer: fn(&mut [u8]) -> Result<(), Refusal>| {
        let mut frame = [0; 16];
        writer(&mut frame).map(|()| frame)
    };
    let orders = [
        (Order::upload(0x1018, 4), write(|frame| frames::upload(1, 0x1018, 4, frame))),
        (Order::upload(0x1018, SubIndex::Complete), write(|frame| frames::upload(1, 0x1018, SubIndex::Complete, frame))),
        (Order::download(0x1c12, 2, &[1, 2]), write(|frame| frames::download(1, 0x1c12, 2, &[1, 2], frame))),
        (
            Order::download(0x1c12, SubIndex::Complete, &[9]),
            write(|frame| frames::download(1, 0x1c12, SubIndex::Complete, &[9], frame)),
        ),
        (
            Order::ObjectList(ListKind::StartupParameters),
            write(|frame| frames::object_list(1, ListKind::StartupParameters, frame)),
        ),
        (Order::Quantities, write(|frame| frames::quantities(1, frame))),
    ];
    for (order, written) in orders {
        let (mut desk, mut frame) = (Desk::new(), [0; 16]);
        desk.enter(SEAT, order).unwrap();
        assert_eq!(desk.send(SEAT, &mut frame).map(|()| frame), written, "{order}");
    }
}

#[test]
fn short_reply_and_unlisted_type() {
    let mut data = [0xa5; 64];
    let short = [(UPLOAD, "0a00000000130030431810"), (DOWNLOAD, "0a00000000130030601810"), (LIST, "0800000000130080020000")];
    for (expected, eleven) in short {
        assert_eq!(judge(expected, &bytes(eleven), &mut data), Err(Refusal::Undecodable), "{expected:?}");
    }
    assert_eq!(judge(UPLOAD, &bytes("0a0000000016003043181001"), &mut data), Err(Refusal::Undecodable));
    assert_eq!(data, [0xa5; 64]);
}

#[test]
fn complete_size_against_the_buffer() {
    let mut data = [0; 64];
    let segments_follow = Ok(Judged::RequestDue { chunk: 0 });
    assert_eq!(judge(UPLOAD, &bytes("0a000000001300304018100140000000"), &mut data), segments_follow);
    assert_eq!(judge(UPLOAD, &bytes("0a000000001300304018100141000000"), &mut data), Err(Refusal::TooLarge));
}

#[test]
fn segments() {
    let mut data = [0; 64];
    let expected = Expected::Segment { earlier: 3 };
    let judged = judge(expected, &bytes("0a000000001300300e00000000000000"), &mut data);
    assert_eq!(judged, Ok(Judged::RequestDue { chunk: 0 }));
    let judged = judge(expected, &bytes("0b000000001300300e0102030405060708"), &mut data);
    assert_eq!(judged, Ok(Judged::RequestDue { chunk: 8 }));
    assert_eq!(data[..12], [0, 0, 0, 1, 2, 3, 4, 5, 6, 7, 8, 0]);
    assert_eq!(judge(expected, &bytes("020000000013003000000000"), &mut data), Err(Refusal::LengthField));
}

#[test]
fn segment_replies_of_9_to_11_bytes() {
    let mut data = [0xa5; 4];
    assert_eq!(judge(SEGMENT, &bytes("0300000000130030"), &mut data), Err(Refusal::Undecodable));
    assert_eq!(judge(SEGMENT, &bytes("030000000013003000"), &mut data), Ok(Judged::RequestDue { chunk: 0 }));
    assert_eq!(data, [0xa5; 4]);
    assert_eq!(judge(SEGMENT, &bytes("0a000000001300300b6162"), &mut data), Ok(Judged::Done { length: 2 }));
    assert_eq!(data, *b"ab\xa5\xa5");
}

#[test]
fn overtemperature() {
    let (reply, mut data) = (bytes("0a000000001300101042080102030405"), [0xa5; 4]);
    let emergency = Refusal::Emergency { code: 0x4210, register: 8, data: [1, 2, 3, 4, 5] };
    for expected in [UPLOAD, DOWNLOAD, SEGMENT] {
        assert_eq!(judge(expected, &reply, &mut data), Err(emergency), "{expected:?}");
        assert_eq!(judge(expected, &reply[..15], &mut data), Err(Refusal::Undecodable), "{expected:?}");
    }
    assert_eq!(data, [0xa5; 4]);
}

#[test]
fn lists() {
    let mut data = [0; 8];
    let first = judge(LIST, &bytes("0a000000001300808200000001000010"), &mut data);
    assert_eq!(first, Ok(Judged::ReplyDue { chunk: 2, begun: true }));
    let other = judge(LIST, &bytes("0a000000001300800400000001000010"), &mut data);
    assert_eq!(other, Ok(Judged::ReplyDue { chunk: 0, begun: false }));
    let last = judge(Expected::List { begun: true, earlier: 2 }, &bytes("0a00000000130080020000001810"), &mut data);
    assert_eq!(last, Ok(Judged::Done { length: 4 }));
    assert!(reads::object_list(&data[..4]).unwrap().eq([0x1000, 0x1018]));
}

#[test]
fn expedited_without_its_indicator() {
    let mut data = [0; 4];
    assert_eq!(judge(UPLOAD, &bytes("0a000000001300304e181001ff"), &mut data), Ok(Judged::Done { length: 1 }));
    assert_eq!(data, [0xff, 0, 0, 0]);
}

#[test]
fn typed_reads() {
    assert_eq!(reads::i16(&[0xff, 0xff]), Ok(-1));
    assert_eq!(reads::i16(&[0x00, 0x80]), Ok(-32_768));
    assert_eq!((reads::i8(&[0x80]), reads::i8(&[0xff])), (Ok(-128), Ok(-1)));
    assert_eq!(reads::i32(&[0, 0, 0, 0x80, 9]), Ok(i32::MIN));
    assert_eq!((reads::u8(&[0x80]), reads::u16(&[0xff, 0xfe])), (Ok(0x80), Ok(0xfeff)));
    assert_eq!(reads::u32(&[0x78, 0x56, 0x34, 0xf2]), Ok(0xf234_5678));
    assert_eq!((reads::u8(&[]), reads::u16(&[1])), (Err(Refusal::Undecodable), Err(Refusal::Undecodable)));
    assert_eq!(reads::quantities(&[1, 0, 2, 0, 3, 0, 4, 0, 5, 1]).unwrap().startup_parameters, 0x105);
    assert_eq!(reads::quantities(&[0; 9]), Err(Refusal::Undecodable));
    assert!(reads::object_list(&[]).unwrap().next().is_none());
    assert!(reads::object_list(&[0, 0x10, 1]).is_err());
}

#[test]
fn the_eighth_frame_has_counter_1() {
    let (mut desk, mut frame) = (Desk::new(), [0; 16]);
    for number in 0..8 {
        desk.enter(SEAT, Order::upload(0x1018, 1)).unwrap();
        desk.send(SEAT, &mut frame).unwrap();
        assert_eq!(frame[5] >> 4, number % 7 + 1);
        desk.leave(SEAT).unwrap();
    }
}

#[test]
fn budget_of_2_and_a_first_segment_that_is_not_the_last() {
    let (mut desk, mut frame, mut data) = (Desk::new(), [0; 16], [0; 64]);
    desk.enter_within(SEAT, Order::upload(0x1018, 1), 2).unwrap();
    desk.send(SEAT, &mut frame).unwrap();
    let first = desk.receive(SEAT, &bytes("0a000000001300304018100120000000"), &mut data);
    assert_eq!(first, Ok(Answer::RequestDue));
    desk.send(SEAT, &mut frame).unwrap();
    let second = desk.receive(SEAT, &bytes("0b00000000130030000102030405060708"), &mut data);
    assert_eq!(second, Err(Refusal::BudgetSpent));
    assert_eq!(data, [0; 64]);
    assert_eq!(desk.leave(SEAT), Err(Refusal::SeatEmpty));
}

#[test]
fn the_order_programs_example() {
    let (mut desk, mut frame, mut data) = (Desk::new(), [0; 16], [0; 4096]);
    desk.enter(SEAT, Order::upload(0x1018, 1)).unwrap();
    desk.send(SEAT, &mut frame).unwrap();
    assert_eq!(frame[..], bytes("0a000000001300204018100100000000"));
    let answer = desk.receive(SEAT, &bytes("0a000000001300304318100178563412"), &mut data);
    assert_eq!((answer, &data[..4]), (Ok(Answer::Done { length: 4 }), &bytes("78563412")[..]));
}
