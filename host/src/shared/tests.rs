use super::*;
use std::convert::Infallible;
use std::panic::{catch_unwind, AssertUnwindSafe};
use std::sync::mpsc::{channel, Receiver, Sender};
use std::thread::Scope;
use std::vec::Vec;

/// Answers each upload with its own index, notes it, and waits for the gate before the first answer.
struct Gated<'g> {
    gate: Option<&'g Receiver<()>>,
    served: &'g Mutex<Vec<u16>>,
    index: [u8; 2],
}

impl Mailbox for Gated<'_> {
    type Error = Infallible;

    fn write(&mut self, frame: &[u8]) -> Result<(), Infallible> {
        self.index = [frame[9], frame[10]];
        Ok(())
    }

    fn read(&mut self, reply: &mut [u8], _timeout: Duration) -> Result<Option<usize>, Infallible> {
        if let Some(gate) = self.gate.take() {
            gate.recv().unwrap();
        }
        self.served.lock().unwrap().push(u16::from_le_bytes(self.index));
        let [low, high] = self.index;
        reply[..16].copy_from_slice(&[10, 0, 0, 0, 0, 0x13, 0, 0x30, 0x4b, low, high, 0, low, high, 0, 0]);
        Ok(Some(16))
    }
}

/// Waits until the desk has had this many calls.
fn until_called(desk: &SharedDesk, calls: u64) {
    while desk.lock().calls < calls {
        std::thread::yield_now();
    }
}

/// An upload in a thread of its own, which waits for its drive until what is given back is sent to; the desk has had `calls` calls then.
fn waiting_upload<'scope>(
    scope: &'scope Scope<'scope, '_>,
    desk: &'scope SharedDesk,
    served: &'scope Mutex<Vec<u16>>,
    calls: u64,
) -> Sender<()> {
    let (open, gate) = channel();
    scope.spawn(move || {
        let mut mailbox = Gated { gate: Some(&gate), served, index: [0; 2] };
        desk.transfer(Order::upload(7, 0), &mut [0; 4], &mut mailbox).map(|_| ()).unwrap();
    });
    until_called(desk, calls);
    open
}

#[test]
fn calls_are_served_in_the_order_they_came_in() {
    let (desk, served) = (SharedDesk::new(Duration::ZERO), Mutex::new(Vec::new()));
    let (open, gate) = channel();
    std::thread::scope(|scope| {
        let mut gate = Some(gate);
        for task in 0..12u16 {
            let (desk, served, gate) = (&desk, &served, gate.take());
            scope.spawn(move || {
                let mut mailbox = Gated { gate: gate.as_ref(), served, index: [0; 2] };
                assert_eq!(desk.transfer(Order::upload(task, 0), &mut [0; 4], &mut mailbox).unwrap().u16(), Ok(task));
            });
            until_called(desk, u64::from(task) + 1);
        }
        open.send(()).unwrap();
    });
    assert_eq!(served.into_inner().unwrap(), (0..12).collect::<Vec<u16>>());
}

#[test]
fn a_call_waits_for_those_before_it_though_seats_are_free() {
    let (desk, served) = (SharedDesk::new(Duration::ZERO), Mutex::new(Vec::new()));
    desk.lock().calls = 1;
    std::thread::scope(|scope| {
        let (desk, served) = (&desk, &served);
        let open = waiting_upload(scope, desk, served, 2);
        assert_eq!(desk.lock().desk.leave(Seat::ALL[0]), Err(Refusal::SeatEmpty));
        desk.lock().seen_to = 1;
        desk.changed.notify_all();
        open.send(()).unwrap();
    });
    assert_eq!(served.into_inner().unwrap(), [7]);
}

#[test]
fn others_can_enter_while_one_waits_for_its_drive() {
    let (desk, served) = (SharedDesk::new(Duration::ZERO), Mutex::new(Vec::new()));
    std::thread::scope(|scope| {
        let (desk, served) = (&desk, &served);
        let open = waiting_upload(scope, desk, served, 1);
        let mut mailbox = Gated { gate: None, served, index: [0; 2] };
        let refused = desk.transfer(Order::download(8, 0, &[]), &mut [], &mut mailbox);
        assert_eq!(refused, Err(TransferError::Refused(Refusal::BadOrder)), "judged at its entry, with the first still waiting");
        assert!(served.lock().unwrap().is_empty());
        open.send(()).unwrap();
    });
}

#[test]
fn a_poisoned_lock_is_no_obstacle() {
    let (desk, served) = (SharedDesk::new(Duration::ZERO), Mutex::new(Vec::new()));
    let poisoning = catch_unwind(AssertUnwindSafe(|| {
        let _state = desk.lock();
        panic!("with the lock held");
    }));
    assert!(poisoning.is_err() && desk.state.is_poisoned());
    let mut mailbox = Gated { gate: None, served: &served, index: [0; 2] };
    assert_eq!(desk.transfer(Order::upload(7, 0), &mut [0; 4], &mut mailbox).unwrap().u16(), Ok(7));
}
