//! Every number that refuses, with its values, and what it leaves. 10 is in the crate's own tests: a `Seat` can't bring it about.
use coe_desk::{AbortCode, Answer, Desk, ListKind, Order, Refusal, Seat};
use common::drive::emergency;

mod common;

const FIRST: Seat = Seat::ALL[0];
const SECOND: Seat = Seat::ALL[1];
const UPLOAD: [u8; 16] = *b"\x0a\0\0\0\0\x13\0\x30\x43\x18\x10\x01\x78\x56\x34\x12";
const TOO_HOT: Refusal = Refusal::Emergency { code: 0x4210, register: 8, data: [1, 2, 3, 4, 5] };

/// A desk whose head, the first seat, awaits the reply to its order.
fn awaiting(order: Order<'_>, budget: u16) -> Desk {
    let mut desk = Desk::new();
    desk.enter_within(FIRST, order, budget).unwrap();
    desk.send(FIRST, &mut [0; 16]).unwrap();
    desk
}

/// A desk whose head, the first seat, awaits its first segment.
fn awaiting_segment() -> Desk {
    let mut desk = awaiting(Order::upload(0x1018, 1), 9);
    let segments_follow = reply(&[(8, 0x41), (12, 8), (13, 0), (14, 0), (15, 0)]);
    assert_eq!(desk.receive(FIRST, &segments_follow, &mut [0; 8]), Ok(Answer::RequestDue));
    desk.send(FIRST, &mut [0; 16]).unwrap();
    desk
}

/// A reply with some bytes of its own.
fn reply(changed: &[(usize, u8)]) -> Vec<u8> {
    let mut reply = UPLOAD.to_vec();
    for (at, byte) in changed {
        reply[*at] = *byte;
    }
    reply
}

/// The reply to `order` ends the transfer with `refusal`.
fn ends(order: Order<'_>, reply: &[u8], number: u8, refusal: Refusal) {
    ends_at(awaiting(order, 9), reply, number, refusal);
}

/// The reply ends the head's transfer with `refusal`, in its number's class, and the data stay as they were.
fn ends_at(mut desk: Desk, reply: &[u8], number: u8, refusal: Refusal) {
    let mut data = [0xa5; 8];
    assert_eq!(desk.receive(FIRST, reply, &mut data), Err(refusal), "{reply:02x?}");
    assert_eq!((refusal.number(), refusal.is_over(), data), (number, true, [0xa5; 8]));
    assert_eq!(desk.leave(FIRST), Err(Refusal::SeatEmpty), "the seat is free again");
}

#[test]
fn calls_out_of_place() {
    let (mut desk, mut frame, mut data) = (Desk::new(), [0xa5; 16], [0xa5; 4]);
    let order = Order::upload(0x1018, 1);
    assert_eq!(desk.send(FIRST, &mut frame), Err(Refusal::SeatEmpty));
    assert_eq!(desk.receive(FIRST, &UPLOAD, &mut data), Err(Refusal::SeatEmpty));
    desk.enter(FIRST, order).unwrap();
    assert_eq!(desk.enter(FIRST, order), Err(Refusal::SeatTaken));
    desk.enter(SECOND, order).unwrap();
    assert_eq!(desk.send(SECOND, &mut frame), Err(Refusal::NotAtHead));
    assert_eq!(desk.receive(SECOND, &UPLOAD, &mut data), Err(Refusal::NotAtHead));
    assert_eq!(desk.receive(FIRST, &UPLOAD, &mut data), Err(Refusal::OtherDue));
    assert_eq!((frame, data), ([0xa5; 16], [0xa5; 4]));
    desk.send(FIRST, &mut frame).unwrap();
    assert_eq!(desk.send(FIRST, &mut [0xa5; 16]), Err(Refusal::OtherDue));
    assert_eq!(desk.receive(FIRST, &UPLOAD, &mut data), Ok(Answer::Done { length: 4 }), "after all of these");
}

#[test]
fn numbers_of_the_calls() {
    let refusals = [
        (0x10, Refusal::NoSuchSeat),
        (0x11, Refusal::SeatTaken),
        (0x12, Refusal::SeatEmpty),
        (0x13, Refusal::NotAtHead),
        (0x14, Refusal::OtherDue),
        (0x15, Refusal::BadOrder),
        (0x16, Refusal::BufferLength),
    ];
    for (number, refusal) in refusals {
        assert_eq!((refusal.number(), refusal.is_over()), (number, false));
    }
}

#[test]
fn orders_that_are_none() {
    let mut desk = Desk::new();
    for data in [&[][..], &[1, 2, 3, 4, 5]] {
        assert_eq!(desk.enter(FIRST, Order::download(0x6060, 0, data)), Err(Refusal::BadOrder));
    }
    assert_eq!(desk.enter_within(FIRST, Order::Quantities, 0), Err(Refusal::BadOrder));
    assert_eq!(desk.enter(FIRST, Order::download(0x6060, 0, &[1, 2, 3, 4])), Ok(()));
}

#[test]
fn lengths_of_buffers() {
    let mut desk = Desk::new();
    desk.enter(FIRST, Order::upload(0x1018, 1)).unwrap();
    for length in [0, 15, 1487] {
        let mut frame = vec![0xa5; length];
        assert_eq!(desk.send(FIRST, &mut frame), Err(Refusal::BufferLength));
        assert_eq!(frame, vec![0xa5; length]);
    }
    desk.send(FIRST, &mut [0; 1486]).unwrap();
    assert_eq!(desk.receive(FIRST, &[0; 1487], &mut []), Err(Refusal::BufferLength));
    assert_eq!(desk.receive(FIRST, &UPLOAD, &mut vec![0; 131_071]), Err(Refusal::BufferLength));
    assert_eq!(desk.receive(FIRST, &UPLOAD, &mut vec![0; 131_070]), Ok(Answer::Done { length: 4 }));
}

#[test]
fn replies_that_end_a_transfer() {
    let (order, list) = (Order::upload(0x1018, 1), Order::ObjectList(ListKind::All));
    ends(order, &UPLOAD[..11], 0x20, Refusal::Undecodable);
    let abort = reply(&[(8, 0x80), (9, 0x19), (11, 7), (12, 0x11), (13, 0), (14, 9), (15, 6)]);
    let aborted = |code, index, sub_index| Refusal::Aborted { code, index, sub_index };
    ends(order, &abort, 0x22, aborted(AbortCode::SubIndexNotFound, 0x1019, 7));
    ends(order, &reply(&[(8, 0x80)]), 0x22, aborted(AbortCode::Unknown(0x1234_5678), 0x1018, 1));
    for (at, byte) in [(5, 0x12), (9, 0x19), (10, 0x11), (11, 2)] {
        ends(order, &reply(&[(at, byte)]), 0x23, Refusal::WrongReply);
    }
    ends(order, &reply(&[(8, 0x41), (12, 9), (13, 0), (14, 0), (15, 0)]), 0x24, Refusal::TooLarge);
    ends(order, &UPLOAD[..15], 0x25, Refusal::MissingBytes);
    ends(list, &reply(&[(0, 7), (7, 0x80), (8, 2)]), 0x26, Refusal::LengthField);
    ends(list, &reply(&[(0, 11), (7, 0x80), (8, 2)]), 0x25, Refusal::MissingBytes);
}

#[test]
fn segment_replies_that_end_a_transfer() {
    let ends = |reply: &[u8], number, refusal| ends_at(awaiting_segment(), reply, number, refusal);
    let segment = reply(&[(8, 0x00)]);
    ends(&segment[..8], 0x20, Refusal::Undecodable);
    ends(&reply(&[(8, 0xa0)])[..9], 0x20, Refusal::Undecodable);
    let abort = reply(&[(8, 0x80), (12, 0), (13, 0), (14, 4), (15, 5)]);
    for length in 9..16 {
        ends(&abort[..length], 0x20, Refusal::Undecodable);
    }
    ends(&abort, 0x22, Refusal::Aborted { code: AbortCode::SdoTimeout, index: 0x1018, sub_index: 1 });
    ends(&reply(&[(5, 0x12), (8, 0x00)])[..9], 0x23, Refusal::WrongReply);
    ends(&segment[..15], 0x25, Refusal::MissingBytes);
    ends(&reply(&[(0, 2), (8, 0x00)])[..9], 0x26, Refusal::LengthField);
}

/// A desk for each reply that an emergency can come in place of, which its head awaits.
fn awaiting_an_sdo_reply() -> [Desk; 3] {
    [awaiting(Order::upload(0x1018, 1), 9), awaiting(Order::download(0x1018, 1, &[8]), 9), awaiting_segment()]
}

#[test]
fn emergencies_end_a_transfer() {
    for desk in awaiting_an_sdo_reply() {
        ends_at(desk, b"\x0a\0\0\0\0\x13\0\x10\x10\x42\x08\x01\x02\x03\x04\x05", 0x21, TOO_HOT);
    }
    let with_more_behind = [&emergency(0x4210, 8, [1, 2, 3, 4, 5])[..], &[0xee; 112]].concat();
    for desk in awaiting_an_sdo_reply() {
        ends_at(desk, &with_more_behind, 0x21, TOO_HOT);
    }
    for length in 9..16 {
        for desk in awaiting_an_sdo_reply() {
            ends_at(desk, &with_more_behind[..length], 0x20, Refusal::Undecodable);
        }
    }
}

#[test]
fn an_emergencys_byte_8_is_its_codes_low_byte() {
    for low in 0..=255 {
        let (code, data) = (u16::from_le_bytes([low, 0xff]), [low, 0, 0xff, 0, !low]);
        for desk in awaiting_an_sdo_reply() {
            ends_at(desk, &emergency(code, low, data), 0x21, Refusal::Emergency { code, register: low, data });
        }
    }
}

#[test]
fn an_emergency_of_any_listed_type_is_one() {
    for byte_5 in 0x10..0x20u8 {
        let mut message = emergency(0x4210, 8, [1, 2, 3, 4, 5]);
        message[5] = byte_5;
        let (number, refusal) = match byte_5 & 0x0f {
            0..=5 | 15 => (0x21, TOO_HOT),
            _ => (0x20, Refusal::Undecodable),
        };
        awaiting_an_sdo_reply().into_iter().for_each(|desk| ends_at(desk, &message, number, refusal));
    }
}

#[test]
fn service_1_in_a_list_is_no_emergency() {
    let (mut desk, mut data) = (awaiting(Order::ObjectList(ListKind::All), 9), [0; 8]);
    let fragment = reply(&[(7, 0x10), (8, 2)]);
    assert_eq!(desk.receive(FIRST, &fragment, &mut data), Ok(Answer::Done { length: 2 }));
    assert_eq!(data, [0x34, 0x12, 0, 0, 0, 0, 0, 0]);
}

#[test]
fn a_spent_budget() {
    let (mut desk, mut data) = (awaiting(Order::Quantities, 1), [0xa5; 8]);
    let incomplete = reply(&[(7, 0x80), (8, 0x82)]);
    assert_eq!(desk.receive(FIRST, &incomplete, &mut data), Err(Refusal::BudgetSpent));
    assert_eq!((Refusal::BudgetSpent.number(), data), (0x27, [0xa5; 8]));
}

#[test]
fn every_refusal_is_an_error_that_says_something() {
    let refusals: [Box<dyn std::error::Error>; 3] =
        [Box::new(Refusal::NotAtHead), Box::new(TOO_HOT), Box::new(Refusal::Unnamed { number: 0x17 })];
    assert_eq!(
        refusals.map(|refusal| refusal.to_string()),
        [
            "not at the head of the line: wait until the transfers ahead have ended",
            "the drive sent emergency 0x4210 (device temperature), register 0x08, data 01 02 03 04 05",
            "number 17: the linked archive is newer than this crate",
        ]
    );
}
