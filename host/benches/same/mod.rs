//! Both forms give the same answers and leave the same bytes, on what is timed and on much else.
use crate::ffi::{self, Record};
use crate::plain::{self, Desk};
use crate::works::inputs::{announcement, lists, payload, segment, uploads, ABORT, DATA, EXPEDITED, INDEX};
use crate::works::inputs::{LIST, LONGEST, ROOM, SEGMENT, SUB, UPLOAD, WRONG_TYPE};
use crate::works::transferred;

/// Numbers that look like chance and are the same in every run.
struct Chance(u64);

impl Chance {
    fn below(&mut self, end: u64) -> u64 {
        self.0 = self.0.wrapping_mul(6_364_136_223_846_793_005).wrapping_add(1_442_695_040_888_963_407);
        (self.0 >> 33) % end
    }

    fn byte(&mut self) -> u8 {
        self.below(256) as u8
    }

    /// Code, register and data are any: the code's low byte stands where other replies have their command.
    fn emergency(&mut self) -> Vec<u8> {
        let mut reply = b"\x0a\0\0\0\0\x13\0\x10".to_vec();
        reply.extend([0; 8].map(|_: u8| self.byte()));
        reply
    }

    /// A reply near to a drive's, of any kind, an abort or an emergency: some bytes, the length field or the end changed or not.
    fn reply(&mut self) -> Vec<u8> {
        let mut reply = match self.below(6) {
            0 => EXPEDITED.to_vec(),
            1 => b"\x0e\0\0\0\0\x13\0\x30\x41\x18\x10\x04\x04\0\0\0\x01\x02\x03\x04".to_vec(),
            2 => b"\x0a\0\0\0\0\x13\0\x30\0\x01\x02\x03\x04\x05\x06\x07\x08".to_vec(),
            3 => ABORT.to_vec(),
            4 => self.emergency(),
            _ => b"\x0c\0\0\0\0\x13\0\x80\x82\0\x01\0\x01\0\0\x10\x18\x10\x00\x20".to_vec(),
        };
        for _ in 0..self.below(3) {
            let at = self.below(reply.len() as u64) as usize;
            reply[at] = if self.below(2) == 0 { self.byte() } else { reply[at] ^ 1 << self.below(8) };
        }
        if self.below(4) == 0 {
            reply[0] = self.below(16) as u8;
        }
        if self.below(8) == 0 {
            reply.truncate(self.below(21) as usize);
        }
        reply
    }
}

/// Both forms of a writer's call, each with a buffer of `length` bytes.
fn written(length: usize, archive: impl Fn(&mut [u8]) -> u8, plain: impl Fn(&mut [u8]) -> u8) {
    let (mut left, mut right) = (vec![0xa5; length], vec![0xa5; length]);
    assert_eq!((archive(&mut left), left), (plain(&mut right), right));
}

/// With the flags that the crate's types have. Any other is refused by the plain form too.
fn writers() {
    for length in [0, 15, 16, 17, 1485, 1486, 1487] {
        for (counter, flag) in (0..=9).flat_map(|counter| [(counter, 0), (counter, 1)]) {
            let complete = flag == 1;
            written(
                length,
                |frame| ffi::upload_frame(counter, INDEX, SUB, complete, frame),
                |frame| plain::upload_frame(counter, INDEX, SUB, flag, frame),
            );
            for data in [&[][..], &DATA[..1], &DATA[..3], &DATA, &[0; 5]] {
                written(
                    length,
                    |frame| ffi::download_frame(counter, INDEX, SUB, complete, data, frame),
                    |frame| plain::download_frame(counter, INDEX, SUB, flag, data, frame),
                );
            }
            written(
                length,
                |frame| ffi::segment_frame(counter, complete, frame),
                |frame| plain::segment_frame(counter, flag, frame),
            );
        }
        for (counter, kind) in (0..=9).flat_map(|counter| (0..=6).map(move |kind| (counter, kind))) {
            written(length, |frame| ffi::list_frame(counter, kind, frame), |frame| plain::list_frame(counter, kind, frame));
        }
    }
    let frame = &mut [0; 16];
    let refused = [
        plain::upload_frame(1, INDEX, SUB, 2, frame),
        plain::download_frame(1, INDEX, SUB, 2, &DATA, frame),
        plain::segment_frame(1, 2, frame),
    ];
    assert_eq!((refused, *frame), ([0x15; 3], [0; 16]));
}

fn judged(kind: u8, earlier: u32, reply: &[u8], room: usize) -> u8 {
    let (mut left, mut right) = (vec![0xa5; room], vec![0xa5; room]);
    let archive = ffi::judge(kind, INDEX, SUB, earlier, reply, &mut left);
    let plain = plain::judge(kind, INDEX, SUB, earlier, reply, &mut right);
    assert_eq!((archive, left), (plain, right), "kind {kind}, earlier {earlier}, reply {reply:02x?}, room {room}");
    archive.number
}

fn judges(chance: &mut Chance) {
    assert_eq!(judged(UPLOAD, 0, &EXPEDITED, 4096), 0x00);
    assert_eq!(judged(UPLOAD, 0, &WRONG_TYPE, 4096), 0x23);
    assert_eq!(judged(UPLOAD, 0, &ABORT, 4096), 0x22);
    for (length, room) in [(0, 4), (4, 4), (7, 4096), (64, ROOM), (LONGEST, ROOM)] {
        assert_eq!(judged(SEGMENT, 0, &segment(&payload(length), false), room), 0x01);
    }
    let mut seen = [0; 256];
    for _ in 0..20_000 {
        let kind = [1, 3, 4, 7, 8, 2][chance.below(6) as usize];
        let number = judged(kind, chance.below(12) as u32, &chance.reply(), chance.below(24) as usize);
        seen[usize::from(number)] += 1;
    }
    for number in [0x00, 0x01, 0x02, 0x15, 0x20, 0x21, 0x22, 0x23, 0x24, 0x25, 0x26] {
        assert!(seen[number] > 0, "no reply was answered {number:02x}: the comparison left a rule out");
    }
}

/// Calls by chance, of which most fit where the desk stands.
fn desks(chance: &mut Chance) {
    let (mut record, mut desk) = (Record::fresh(), Desk::fresh());
    let (mut left, mut right) = ([0xa5; 24], [0xa5; 24]);
    let mut seen = [0; 256];
    for _ in 0..40_000 {
        let seat = chance.below(9) as u8;
        let call = chance.below(16);
        let (archive, plain) = match call {
            0..=2 => {
                let (kind, index) = [(1, INDEX), (1, INDEX), (2, INDEX), (3, INDEX), (4, 1), (5, 0), (6, INDEX), (4, 6), (7, 1)]
                    [chance.below(9) as usize];
                let (data, budget) = (&DATA[..chance.below(5) as usize], chance.below(6) as u16);
                (
                    record.enter_within(seat, kind, index, SUB, data, budget),
                    desk.enter_within(seat, kind, index, SUB, data, budget),
                )
            }
            3 => (record.enter(seat, 1, INDEX, SUB, &[]), desk.enter(seat, 1, INDEX, SUB, &[])),
            4..=8 => (record.send(seat, &mut left), desk.send(seat, &mut right)),
            9..=14 => {
                let reply = chance.reply();
                (record.receive(seat, &reply, &mut left), desk.receive(seat, &reply, &mut right))
            }
            _ => (record.leave(seat), desk.leave(seat)),
        };
        assert_eq!((archive, left), (plain, right), "call {call} at seat {seat}");
        seen[usize::from(archive.number)] += 1;
    }
    for number in (0x00..=0x03).chain(0x10..=0x15).chain(0x20..=0x27) {
        assert!(seen[number] > 0, "no call was answered {number:02x}: the comparison left a rule out");
    }
}

/// Whole transfers bring the payload that was cut into their replies.
fn transfers() {
    for length in [65_536, ROOM] {
        let payload = payload(length);
        for (kind, index, replies) in [(UPLOAD, INDEX, uploads(&payload)), (LIST, 1, lists(&payload))] {
            let (mut left, mut right) = (vec![0; length], vec![0; length]);
            let archive = transferred(&mut Record::fresh(), kind, index, &replies, &mut left);
            let plain = transferred(&mut Desk::fresh(), kind, index, &replies, &mut right);
            assert_eq!((archive, archive.number, archive.length as usize), (plain, 0x00, length));
            assert!(left == payload && right == payload, "a transfer of kind {kind} brought other bytes than were sent");
        }
    }
}

/// A faulty drive's empty segments: with the 1,024th reply both give up, unless it is the last segment.
fn budgets() {
    for (last, number) in [(false, 0x27), (true, 0x00)] {
        let mut replies = vec![segment(&[], false); 1024];
        replies[0] = announcement(1);
        replies[1023] = segment(&[], last);
        let archive = transferred(&mut Record::fresh(), UPLOAD, INDEX, &replies, &mut [0]);
        let plain = transferred(&mut Desk::fresh(), UPLOAD, INDEX, &replies, &mut [0]);
        assert_eq!((archive, archive.number), (plain, number));
    }
}

pub fn check() {
    let mut chance = Chance(1);
    writers();
    judges(&mut chance);
    desks(&mut chance);
    transfers();
    budgets();
}
