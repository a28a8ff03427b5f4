//! Two tasks at one drive. One reads the identity (0x1018, complete), the other the drive's name (0x1008), both in segments.
//!
//! Without a desk each task writes its own requests, and no byte is wrong on the way: toggles, lengths and sizes are all as they
//! should be. Still the identity ends with eight bytes of the name, and the serial number is wrong. With the desk, at the same
//! times, it can't be.
use coe_desk::{frames, judge, Answer, Desk, Expected, Judged, Order, Refusal, Seat, SubIndex};
use drive::Drive;

#[path = "../tests/common/drive.rs"]
mod drive;

const SERIAL: u32 = 123_456;
const IDENTITY: usize = 0;
const NAME: usize = 1;
const TASKS: [(&str, u16, SubIndex); 2] = [("identity", 0x1018, SubIndex::Complete), ("name", 0x1008, SubIndex::Index(0))];

/// Which task has the processor, one exchange each time.
const SCHEDULE: [usize; 6] = [IDENTITY, IDENTITY, NAME, NAME, IDENTITY, NAME];

/// Vendor, product, revision and serial number, and a name: sixteen bytes each, eight to a segment.
fn drive() -> Drive {
    let numbers = [0x0000_0539u32, 0x1234, 7, SERIAL];
    let drive = Drive::new(17).with(0x1008, 0, b"servo drive 4000");
    (1..).zip(numbers).fold(drive, |drive, (sub, number)| drive.with(0x1018, sub, &number.to_le_bytes()))
}

/// What a task that minds only its own transfer keeps.
struct Alone {
    toggle: bool,
    expected: Expected,
    data: [u8; 16],
}

impl Alone {
    fn exchange(&mut self, counter: u8, task: usize, drive: &mut Drive) -> Result<Judged, Refusal> {
        let (_, index, sub_index) = TASKS[task];
        let mut frame = [0; 16];
        match self.expected {
            Expected::Segment { .. } => frames::segment(counter, self.toggle, &mut frame)?,
            _ => frames::upload(counter, index, sub_index, &mut frame)?,
        }
        drive.request(&frame);
        let reply = drive.reply().expect("the drive replies to each request");
        let judged = judge(self.expected, &reply, &mut self.data)?;
        if let Judged::RequestDue { chunk } = judged {
            self.expected = match self.expected {
                Expected::Segment { earlier } => {
                    self.toggle = !self.toggle;
                    Expected::Segment { earlier: earlier + chunk as u32 }
                }
                _ => Expected::Segment { earlier: 0 },
            };
        }
        Ok(judged)
    }
}

/// The serial number in an identity by complete access.
fn serial_of(identity: &[u8; 16]) -> u32 {
    u32::from_le_bytes([identity[12], identity[13], identity[14], identity[15]])
}

fn without_a_desk() -> u32 {
    let mut drive = drive();
    let mut tasks = TASKS.map(|(_, index, sub_index)| Alone {
        toggle: false,
        expected: Expected::Upload { index, sub_index },
        data: [0; 16],
    });
    for (counter, task) in (1..).zip(SCHEDULE) {
        match tasks[task].exchange(counter, task, &mut drive) {
            Ok(judged) => println!("  {}: {judged:?}", TASKS[task].0),
            Err(refusal) => println!("  {}: {refusal}", TASKS[task].0),
        }
    }
    serial_of(&tasks[IDENTITY].data)
}

/// One exchange at the desk: the payload's length once the transfer is done.
fn exchange(desk: &mut Desk, task: usize, drive: &mut Drive, data: &mut [u8]) -> Result<Answer, Refusal> {
    let (seat, mut frame) = (Seat::ALL[task], [0; 16]);
    desk.send(seat, &mut frame)?;
    drive.request(&frame);
    let reply = drive.reply().expect("the drive replies to each request");
    desk.receive(seat, &reply, data)
}

fn with_the_desk() -> u32 {
    let (mut desk, mut drive, mut data) = (Desk::new(), drive(), [[0; 16]; 2]);
    for (task, (_, index, sub_index)) in TASKS.into_iter().enumerate() {
        desk.enter(Seat::ALL[task], Order::Upload { index, sub_index }).expect("a fresh desk has free seats");
    }
    let mut done = [false; 2];
    for task in SCHEDULE.into_iter().cycle().take(2 * SCHEDULE.len()) {
        if done[task] {
            continue;
        }
        let answer = exchange(&mut desk, task, &mut drive, &mut data[task]);
        done[task] = matches!(answer, Ok(Answer::Done { .. }));
        match answer {
            Ok(answer) => println!("  {}: {answer:?}", TASKS[task].0),
            Err(refusal) => println!("  {}: {refusal}", TASKS[task].0),
        }
    }
    assert_eq!((done, &data[NAME]), ([true; 2], b"servo drive 4000"));
    serial_of(&data[IDENTITY])
}

fn main() {
    println!("without a desk:");
    let wrong = without_a_desk();
    println!("  the serial number is read as {wrong}; the drive's is {SERIAL}\nwith the desk:");
    assert_ne!(wrong, SERIAL);
    let right = with_the_desk();
    println!("  the serial number is read as {right}");
    assert_eq!(right, SERIAL);
}
