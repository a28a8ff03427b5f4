//! Random calls of eight seats at one desk give each transfer what it gets alone, one after another, in order of entry.
use coe_desk::{Answer, Desk, ListKind, Order, Refusal, Seat, SubIndex};
use common::drive::{emergency, Drive};

mod common;

const CALLS: u32 = 40_000;
const ORDERS: [Order<'static>; 7] = [
    Order::Upload { index: 0x1018, sub_index: SubIndex::Index(4) },
    Order::Upload { index: 0x1018, sub_index: SubIndex::Complete },
    Order::Upload { index: 0x1008, sub_index: SubIndex::Index(0) },
    Order::Upload { index: 0x7777, sub_index: SubIndex::Index(0) },
    Order::Download { index: 0x1018, sub_index: SubIndex::Index(4), data: &[1, 2, 3, 4] },
    Order::ObjectList(ListKind::All),
    Order::Quantities,
];

struct Random(u64);

impl Random {
    fn below(&mut self, bound: usize) -> usize {
        self.0 ^= self.0 << 13;
        self.0 ^= self.0 >> 7;
        self.0 ^= self.0 << 17;
        (self.0 >> 33) as usize % bound
    }
}

/// An accepted call, with what it was lent, and what came of it.
#[derive(Debug, Clone, PartialEq)]
enum Accepted {
    Sent { frame: [u8; 16] },
    Received { reply: Vec<u8>, answer: Result<Answer, Refusal>, data: [u8; 40] },
    Left,
}

struct Transfer {
    order: Order<'static>,
    budget: u16,
    data: [u8; 40],
    calls: Vec<Accepted>,
}

/// The desk under trial, its drive, and the transfers so far in order of entry.
struct Trial {
    desk: Desk,
    drive: Drive,
    transfers: Vec<Transfer>,
    at_seat: [usize; 8],
    refused: [u32; 256],
    done: u32,
}

impl Trial {
    fn transfer_at(&mut self, seat: Seat) -> Option<&mut Transfer> {
        let number = self.at_seat[usize::from(seat.number())];
        self.transfers.get_mut(number)
    }

    fn enter(&mut self, seat: Seat, order: Order<'static>, budget: u16) {
        match self.desk.enter_within(seat, order, budget) {
            Ok(()) => {
                self.at_seat[usize::from(seat.number())] = self.transfers.len();
                self.transfers.push(Transfer { order, budget, data: [0; 40], calls: Vec::new() });
            }
            Err(refusal) => self.refuse(refusal),
        }
    }

    fn send(&mut self, seat: Seat) {
        let mut frame = [0xa5; 16];
        match self.desk.send(seat, &mut frame) {
            Ok(()) => {
                self.drive.request(&frame);
                self.transfer_at(seat).expect("it has entered").calls.push(Accepted::Sent { frame });
            }
            Err(refusal) => {
                assert_eq!(frame, [0xa5; 16]);
                self.refuse(refusal);
            }
        }
    }

    fn receive(&mut self, seat: Seat, reply: Vec<u8>) {
        let before = self.transfer_at(seat).map_or([0; 40], |transfer| transfer.data);
        let mut data = before;
        let answer = self.desk.receive(seat, &reply, &mut data);
        match answer {
            Err(refusal) if !refusal.is_over() => {
                assert_eq!(data, before);
                return self.refuse(refusal);
            }
            Err(refusal) => self.refuse(refusal),
            Ok(Answer::Done { .. }) => self.done += 1,
            Ok(_) => {}
        }
        let transfer = self.transfer_at(seat).expect("it has entered");
        transfer.data = data;
        transfer.calls.push(Accepted::Received { reply, answer, data });
        if answer.map_or(true, |answer| matches!(answer, Answer::Done { .. })) {
            self.read_off();
        }
    }

    fn leave(&mut self, seat: Seat) {
        match self.desk.leave(seat) {
            Ok(()) => {
                let transfer = self.transfer_at(seat).expect("it has entered");
                let was_head = !transfer.calls.is_empty();
                transfer.calls.push(Accepted::Left);
                if was_head {
                    self.read_off();
                }
            }
            Err(refusal) => self.refuse(refusal),
        }
    }

    fn read_off(&mut self) {
        while self.drive.reply().is_some() {}
    }

    fn refuse(&mut self, refusal: Refusal) {
        self.refused[usize::from(refusal.number())] += 1;
    }
}

/// The drive's reply, now and then with a byte changed or cut off, or an emergency in its place.
fn reply(drive: &mut Drive, random: &mut Random) -> Vec<u8> {
    let mut reply = drive.reply().unwrap_or_else(|| vec![0; 12]);
    let at = random.below(reply.len());
    match random.below(24) {
        0 => reply[at] = random.below(256) as u8,
        1 => reply.truncate(at),
        2 => reply = emergency(random.below(0x1_0000) as u16, 8, [0; 5].map(|_: u8| random.below(256) as u8)),
        _ => {}
    }
    reply
}

fn random_calls() -> Trial {
    let drive = Drive::new(32).with(0x1018, 0, &[4]).with(0x1018, 4, &[9; 4]).with(0x1018, 5, &[8; 6]);
    let drive = (0..15).fold(drive, |drive, number| drive.with(0x2000 + number, 0, &[1])).with(0x1008, 0, &[7; 38]);
    let mut trial = Trial { desk: Desk::new(), drive, transfers: vec![], at_seat: [usize::MAX; 8], refused: [0; 256], done: 0 };
    let mut random = Random(0x5eed_c0de);
    for _ in 0..CALLS {
        let seat = Seat::ALL[random.below(8)];
        match random.below(160) {
            0..=31 => trial.enter(seat, ORDERS[random.below(7)], [1, 2, 3, 65_535][random.below(4)]),
            32..=91 => trial.send(seat),
            92..=158 => {
                // A task reads the mailbox only after a request of its own.
                let sent = trial.transfer_at(seat).map_or(false, |transfer| !transfer.calls.is_empty());
                let reply = if sent { reply(&mut trial.drive, &mut random) } else { vec![0; 16] };
                trial.receive(seat, reply);
            }
            _ => trial.leave(seat),
        }
    }
    Seat::ALL.into_iter().for_each(|seat| trial.leave(seat));
    trial
}

/// The same calls of one transfer at a desk where nobody else is.
fn alone(desk: &mut Desk, transfer: &Transfer) {
    let (seat, mut data) = (Seat::ALL[0], [0; 40]);
    desk.enter_within(seat, transfer.order, transfer.budget).expect("nobody else is here");
    for call in &transfer.calls {
        let again = match call {
            Accepted::Sent { .. } => {
                let mut frame = [0; 16];
                desk.send(seat, &mut frame).expect("a request is due");
                Accepted::Sent { frame }
            }
            Accepted::Received { reply, .. } => {
                let answer = desk.receive(seat, reply, &mut data);
                Accepted::Received { reply: reply.clone(), answer, data }
            }
            Accepted::Left => {
                desk.leave(seat).expect("it has entered");
                Accepted::Left
            }
        };
        assert_eq!(again, *call);
    }
    assert_eq!(desk.leave(seat), Err(Refusal::SeatEmpty), "the transfer has ended");
}

#[test]
fn eight_seats_against_single_runs() {
    let trial = random_calls();
    let mut desk = Desk::new();
    trial.transfers.iter().for_each(|transfer| alone(&mut desk, transfer));
    assert!(trial.transfers.len() > 1000 && trial.done > 250, "{} entered, {} done", trial.transfers.len(), trial.done);
    for number in [0x11, 0x12, 0x13, 0x14, 0x20, 0x21, 0x22, 0x27] {
        assert!(trial.refused[number] > 10, "{number:02x} came up {} times", trial.refused[number]);
    }
}
