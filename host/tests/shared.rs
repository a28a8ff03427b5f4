//! A shared desk under trouble: whatever one task's transfer ends by, the others go on, and nobody takes its late replies.
use coe_desk::{ListKind, Mailbox, Order, Refusal, SharedDesk, TransferError};
use common::drive::{Drive, Handle};
use std::time::Duration;

mod common;

type Read = Result<Option<usize>, &'static str>;

/// A mailbox whose `write` and `read` are the drive's but for what the test puts in their place.
struct Trouble<W, R> {
    handle: Handle,
    write: W,
    read: R,
}

impl<W: FnMut() -> Result<(), &'static str>, R: FnMut(&mut Handle, &mut [u8]) -> Read> Mailbox for Trouble<W, R> {
    type Error = &'static str;

    fn write(&mut self, frame: &[u8]) -> Result<(), &'static str> {
        self.handle.drive().request(frame);
        (self.write)()
    }

    fn read(&mut self, reply: &mut [u8], _timeout: Duration) -> Read {
        (self.read)(&mut self.handle, reply)
    }
}

fn read(handle: &mut Handle, reply: &mut [u8]) -> Read {
    handle.read(reply, Duration::ZERO).map_err(|never| match never {})
}

const ORDER: Order<'static> = Order::Upload { index: 0x2000, sub_index: coe_desk::SubIndex::Index(0) };

fn trial() -> (SharedDesk, Handle) {
    (SharedDesk::new(Duration::from_millis(1)), Drive::new(64).with(0x2000, 0, &[1]).shared())
}

/// The object is 2 by now, and a late reply that says 1 is not taken for it.
fn goes_on(desk: &SharedDesk, handle: &mut Handle) {
    let mut writer = Handle::clone(handle);
    assert!(desk.transfer(Order::download(0x2000, 0, &[2]), &mut [], &mut writer).is_ok());
    assert_eq!(desk.transfer(ORDER, &mut [0; 4], handle).unwrap().u8(), Ok(2));
}

#[test]
fn a_timeout_leaves() {
    let (desk, mut handle) = trial();
    let mut late = Trouble { handle: handle.clone(), write: || Ok(()), read: |_: &mut Handle, _: &mut [u8]| Ok(None) };
    assert_eq!(desk.transfer(ORDER, &mut [0; 4], &mut late), Err(TransferError::TimedOut));
    goes_on(&desk, &mut handle);
}

#[test]
fn late_replies_are_read_off_once() {
    let (desk, handle) = trial();
    let mut reads = 0;
    let mut counting = Trouble {
        handle,
        write: || Ok(()),
        read: |handle: &mut Handle, reply: &mut [u8]| {
            reads += 1;
            if reads == 1 {
                return Ok(None);
            }
            read(handle, reply)
        },
    };
    let mut results = Vec::new();
    for _ in 0..3 {
        results.push(desk.transfer(ORDER, &mut [0; 4], &mut counting).map(|payload| payload.length()));
    }
    assert_eq!(results, [Err(TransferError::TimedOut), Ok(1), Ok(1)]);
    assert_eq!(reads, 1 + 3 + 1, "nothing; the late reply, silence and the reply; the reply alone");
}

#[test]
fn a_failing_mailbox_leaves() {
    let (desk, mut handle) = trial();
    let mut broken = Trouble { handle: handle.clone(), write: || Err("no carrier"), read };
    let error = desk.transfer(ORDER, &mut [0; 4], &mut broken).unwrap_err();
    assert_eq!((error, error.to_string()), (TransferError::Mailbox("no carrier"), "the mailbox failed: no carrier".into()));
    let mut broken = Trouble { handle: handle.clone(), write: || Ok(()), read: |_: &mut Handle, _: &mut [u8]| Err("no carrier") };
    assert_eq!(desk.transfer(ORDER, &mut [0; 4], &mut broken), Err(TransferError::Mailbox("no carrier")));
    goes_on(&desk, &mut handle);
}

#[test]
fn a_panic_leaves() {
    let (desk, mut handle) = trial();
    for panics_at_write in [true, false] {
        let mut panicking = Trouble {
            handle: handle.clone(),
            write: || if panics_at_write { panic!("write") } else { Ok(()) },
            read: |_: &mut Handle, _: &mut [u8]| panic!("read"),
        };
        let task = std::thread::scope(|scope| {
            scope.spawn(|| desk.transfer(ORDER, &mut [0; 4], &mut panicking).map(|_| ()).is_ok()).join()
        });
        assert!(task.is_err(), "the panic is the task's own");
    }
    goes_on(&desk, &mut handle);
}

#[test]
fn a_mailbox_that_claims_more_than_it_was_lent() {
    let (desk, mut handle) = trial();
    let mut boasting = Trouble { handle: handle.clone(), write: || Ok(()), read: |_: &mut Handle, _: &mut [u8]| Ok(Some(1487)) };
    let refused = Err(TransferError::Refused(Refusal::BufferLength));
    assert_eq!(desk.transfer(ORDER, &mut [0; 4], &mut boasting), refused);
    goes_on(&desk, &mut handle);
}

#[test]
fn the_rest_of_a_list_that_found_no_room() {
    let (desk, mut handle) = trial();
    let mut long =
        (0..200).fold(Drive::new(64).with(0x2000, 0, &[1]), |drive, number| drive.with(0x3000 + number, 0, &[1])).shared();
    let refused = Err(TransferError::Refused(Refusal::MissingBytes));
    assert_eq!(desk.transfer(Order::ObjectList(ListKind::All), &mut [0; 80], &mut long), refused);
    goes_on(&desk, &mut long);
    goes_on(&desk, &mut handle);
}

#[test]
fn a_drive_that_never_falls_silent() {
    let (desk, mut handle) = trial();
    let mut first = true;
    let mut chatter = Trouble {
        handle: handle.clone(),
        write: || Ok(()),
        read: move |_: &mut Handle, _: &mut [u8]| Ok(if std::mem::take(&mut first) { None } else { Some(0) }),
    };
    assert_eq!(desk.transfer(ORDER, &mut [0; 4], &mut chatter), Err(TransferError::TimedOut));
    assert_eq!(desk.transfer(ORDER, &mut [0; 4], &mut chatter), Err(TransferError::NeverQuiet));
    goes_on(&desk, &mut handle);
}

#[test]
fn more_tasks_than_seats() {
    let drive = (0..12).fold(Drive::new(32), |drive, task| drive.with(0x2000 + task, 0, &[task as u8; 30]));
    let (desk, handle) = (SharedDesk::new(Duration::from_millis(1)), drive.shared());
    std::thread::scope(|scope| {
        for task in 0..12u8 {
            let (desk, mut handle) = (&desk, handle.clone());
            scope.spawn(move || {
                for _ in 0..10 {
                    let mut data = [0; 40];
                    let payload = desk.transfer(Order::upload(0x2000 + u16::from(task), 0), &mut data, &mut handle).unwrap();
                    assert_eq!(payload.bytes(), [task; 30]);
                }
            });
        }
    });
}
