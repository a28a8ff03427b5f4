//! A drive's name that comes in segments, as ETG.1000.6 lays them out, arrives without a hole.
use coe_desk::{Answer, Desk, Order, Payload, Refusal, Seat, SharedDesk, SubIndex};
use common::drive::Drive;
use std::time::Duration;

mod common;

const NAME: &str = "AX5112 servo drive";
const ORDER: Order<'static> = Order::Upload { index: 0x1008, sub_index: SubIndex::Index(0) };

fn drive(mailbox_size: usize) -> Drive {
    Drive::new(mailbox_size).with(0x1008, 0, NAME.as_bytes())
}

/// The payload's length, and the replies that brought it.
fn fetched(desk: &mut Desk, drive: &mut Drive, data: &mut [u8]) -> Result<(usize, Vec<Vec<u8>>), Refusal> {
    let (seat, mut frame, mut replies) = (Seat::ALL[0], [0; 16], Vec::new());
    desk.enter(seat, ORDER)?;
    loop {
        desk.send(seat, &mut frame)?;
        drive.request(&frame);
        let reply = drive.reply().expect("the drive replies to each request");
        let answer = desk.receive(seat, &reply, data)?;
        replies.push(reply);
        if let Answer::Done { length } = answer {
            return Ok((length, replies));
        }
    }
}

#[test]
fn by_the_desks_calls() {
    let mut data = [0xa5; 24];
    let (length, replies) = fetched(&mut Desk::new(), &mut drive(16), &mut data).unwrap();
    assert_eq!(
        replies,
        [
            b"\x0a\0\0\0\0\x13\0\x30\x41\x08\x10\0\x12\0\0\0",
            b"\x0a\0\0\0\0\x13\0\x30\x00AX5112 ",
            b"\x0a\0\0\0\0\x13\0\x30\x10servo d",
            b"\x0a\0\0\0\0\x13\0\x30\x07rive\0\0\0",
        ]
    );
    assert_eq!(Payload::new(&data, length).bytes(), NAME.as_bytes());
    assert_eq!(data[NAME.len()..], [0xa5; 6]);
}

#[test]
fn in_segments_of_every_length() {
    let (desk, mut data) = (SharedDesk::new(Duration::from_millis(1)), [0; 64]);
    for mailbox_size in 16..16 + NAME.len() {
        let payload = desk.transfer(ORDER, &mut data, &mut drive(mailbox_size).shared()).unwrap();
        assert_eq!(std::str::from_utf8(payload.bytes()), Ok(NAME), "a mailbox of {mailbox_size} bytes");
    }
}
