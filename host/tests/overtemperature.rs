//! A drive's overtemperature message reaches the task whose reply it comes in place of, and the transfers after it go on.
use coe_desk::{Answer, Desk, Order, Refusal, Seat, SharedDesk, SubIndex, TransferError};
use common::drive::Drive;
use std::time::Duration;

mod common;

const NAME: &[u8] = b"AX5112 servo drive";
const NAME_ORDER: Order<'static> = Order::Upload { index: 0x1008, sub_index: SubIndex::Index(0) };
const STATUS_ORDER: Order<'static> = Order::Upload { index: 0x6041, sub_index: SubIndex::Index(0) };
const TOO_HOT: Refusal = Refusal::Emergency { code: 0x4210, register: 8, data: [1, 2, 3, 4, 5] };

/// A drive with a name, which comes in segments of seven bytes, a status word and a mode.
fn drive() -> Drive {
    Drive::new(16).with(0x1008, 0, NAME).with(0x6041, 0, &[0x37, 0x02]).with(0x6060, 0, &[0])
}

fn grow_too_hot(drive: &mut Drive) {
    drive.raise(0x4210, 8, [1, 2, 3, 4, 5]);
}

#[test]
fn in_place_of_a_first_reply() {
    let (desk, mut data) = (SharedDesk::new(Duration::from_millis(1)), [0; 64]);
    for order in [STATUS_ORDER, NAME_ORDER, Order::download(0x6060, 0, &[8])] {
        let mut handle = drive().shared();
        grow_too_hot(&mut handle.drive());
        assert_eq!(desk.transfer(order, &mut data, &mut handle), Err(TransferError::Refused(TOO_HOT)), "{order}");
        // The drive has replied to the first request too: that is read off, and not taken for the status word.
        assert_eq!(desk.transfer(STATUS_ORDER, &mut data, &mut handle).unwrap().u16(), Ok(0x0237), "after the {order}");
    }
}

/// The head's exchange of one request and the next reply.
fn exchanged(desk: &mut Desk, drive: &mut Drive, data: &mut [u8]) -> Result<Answer, Refusal> {
    let (seat, mut frame) = (Seat::ALL[0], [0; 16]);
    desk.send(seat, &mut frame)?;
    drive.request(&frame);
    desk.receive(seat, &drive.reply().expect("the drive replies to each request"), data)
}

#[test]
fn in_place_of_a_segment() {
    let (mut desk, mut drive, mut data) = (Desk::new(), drive(), [0; 24]);
    desk.enter(Seat::ALL[0], NAME_ORDER).unwrap();
    for reply in ["the name's length", "its first segment"] {
        assert_eq!(exchanged(&mut desk, &mut drive, &mut data), Ok(Answer::RequestDue), "{reply}");
    }
    grow_too_hot(&mut drive);
    assert_eq!(exchanged(&mut desk, &mut drive, &mut data), Err(TOO_HOT));
    assert_eq!(data[..8], *b"AX5112 \0", "the segment before it stays, and nothing else was stored");
    assert_eq!(desk.leave(Seat::ALL[0]), Err(Refusal::SeatEmpty));

    while drive.reply().is_some() {}
    desk.enter(Seat::ALL[0], STATUS_ORDER).unwrap();
    assert_eq!(exchanged(&mut desk, &mut drive, &mut data), Ok(Answer::Done { length: 2 }));
    assert_eq!(data[..2], [0x37, 0x02]);
}
