//! The desk: a struct that its calls change in place.
use super::frames::{Data, Object, Request};
use super::judge::{lengths_fit, verdict, Expected, Next};
use super::numbered;
use crate::ffi::Answer;
use coe_desk::DEFAULT_BUDGET;

#[derive(Debug, Clone, Copy)]
enum Stage {
    FirstRequest,
    FirstReply,
    SegmentRequest { toggle: bool },
    SegmentReply { toggle: bool },
    LaterFragment,
}

/// A transfer in the line: `left` of its budget, and `sum` of the chunks so far.
#[derive(Debug, Clone, Copy)]
struct Transfer {
    seat: u8,
    order: Request,
    stage: Stage,
    left: u16,
    sum: u32,
}

/// The first `waiting` of the line are its transfers, by order of entry.
#[derive(Debug)]
pub struct Desk {
    line: [Transfer; 8],
    waiting: usize,
    counter: u8,
}

impl Transfer {
    const BLANK: Transfer = Transfer { seat: 0, order: Request::List { kind: 0 }, stage: Stage::FirstRequest, left: 0, sum: 0 };

    fn request_due(&self) -> Option<Request> {
        match self.stage {
            Stage::FirstRequest => Some(self.order),
            Stage::SegmentRequest { toggle } => Some(Request::Segment { toggle }),
            _ => None,
        }
    }

    fn reply_due(&self) -> Option<Expected> {
        let earlier = self.sum;
        match (self.stage, self.order) {
            (Stage::FirstReply, Request::Upload(Object { index, sub, .. })) => Some(Expected::Upload { index, sub }),
            (Stage::FirstReply, Request::Download(Object { index, sub, .. }, _)) => Some(Expected::Download { index, sub }),
            (Stage::FirstReply, _) => Some(Expected::List { begun: false, earlier }),
            (Stage::SegmentReply { .. }, _) => Some(Expected::Segment { earlier }),
            (Stage::LaterFragment, _) => Some(Expected::List { begun: true, earlier }),
            _ => None,
        }
    }

    fn sent(&mut self) {
        self.stage = match self.stage {
            Stage::SegmentRequest { toggle } => Stage::SegmentReply { toggle },
            _ => Stage::FirstReply,
        };
    }

    /// After a reply that was not the last.
    fn goes_on(&mut self, next: Next, sum: u32) {
        self.stage = match (next, self.stage) {
            (Next::RequestDue, Stage::SegmentReply { toggle }) => Stage::SegmentRequest { toggle: !toggle },
            (Next::RequestDue, _) => Stage::SegmentRequest { toggle: false },
            (Next::ReplyDue { begun: true }, _) => Stage::LaterFragment,
            (_, stage) => stage,
        };
        self.left -= 1;
        self.sum = sum;
    }
}

fn order(kind: u8, index: u16, sub: u8, data: &[u8]) -> Option<Request> {
    match kind {
        1 | 2 => Some(Request::Upload(Object::new(index, sub, kind == 2))),
        3 | 6 => Data::new(data).map(|data| Request::Download(Object::new(index, sub, kind == 6), data)),
        4 if (1..=5).contains(&index) => Some(Request::List { kind: index }),
        5 => Some(Request::List { kind: 0 }),
        _ => None,
    }
}

impl Desk {
    pub fn fresh() -> Desk {
        Desk { line: [Transfer::BLANK; 8], waiting: 0, counter: 1 }
    }

    fn place(&self, seat: u8) -> Option<usize> {
        self.line[..self.waiting].iter().position(|transfer| transfer.seat == seat)
    }

    fn head(&mut self, seat: u8) -> Result<&mut Transfer, u8> {
        if seat > 7 {
            return Err(0x10);
        }
        match self.place(seat) {
            None => Err(0x12),
            Some(0) => Ok(&mut self.line[0]),
            Some(_) => Err(0x13),
        }
    }

    fn cut(&mut self, place: usize) {
        self.line.copy_within(place + 1..self.waiting, place);
        self.waiting -= 1;
    }

    fn try_enter(&mut self, seat: u8, order: Option<Request>, left: u16) -> Result<u8, u8> {
        if seat > 7 {
            return Err(0x10);
        }
        if self.place(seat).is_some() {
            return Err(0x11);
        }
        let order = order.filter(|_| left > 0).ok_or(0x15)?;
        self.line[self.waiting] = Transfer { seat, order, stage: Stage::FirstRequest, left, sum: 0 };
        self.waiting += 1;
        Ok(0x01)
    }

    fn try_send(&mut self, seat: u8, frame: &mut [u8]) -> Result<u8, u8> {
        let counter = self.counter;
        let head = self.head(seat)?;
        let request = head.request_due().ok_or(0x14)?;
        let number = request.write(counter, frame);
        if number == 0x02 {
            head.sent();
            self.counter = counter % 7 + 1;
        }
        Ok(number)
    }

    fn try_receive(&mut self, seat: u8, reply: &[u8], data: &mut [u8]) -> Result<Answer, u8> {
        let head = self.head(seat)?;
        let expected = head.reply_due().ok_or(0x14)?;
        if !lengths_fit(reply, data) {
            return Err(0x16);
        }
        let answer = match verdict(expected, reply, data.len()) {
            Err(refusal) => refusal,
            Ok(verdict) if matches!(verdict.next, Next::Done) => {
                verdict.chunk.store(reply, data);
                Answer { length: verdict.chunk.end(), ..numbered(0x00) }
            }
            Ok(_) if head.left <= 1 => numbered(0x27),
            Ok(verdict) => {
                verdict.chunk.store(reply, data);
                head.goes_on(verdict.next, verdict.chunk.end());
                return Ok(numbered(if matches!(verdict.next, Next::RequestDue) { 0x01 } else { 0x02 }));
            }
        };
        self.cut(0);
        Ok(answer)
    }

    #[inline(never)]
    pub fn enter_within(&mut self, seat: u8, kind: u8, index: u16, sub: u8, data: &[u8], budget: u16) -> Answer {
        let (Ok(number) | Err(number)) = self.try_enter(seat, order(kind, index, sub, data), budget);
        numbered(number)
    }

    #[inline(never)]
    pub fn enter(&mut self, seat: u8, kind: u8, index: u16, sub: u8, data: &[u8]) -> Answer {
        let (Ok(number) | Err(number)) = self.try_enter(seat, order(kind, index, sub, data), DEFAULT_BUDGET);
        numbered(number)
    }

    #[inline(never)]
    pub fn send(&mut self, seat: u8, frame: &mut [u8]) -> Answer {
        let (Ok(number) | Err(number)) = self.try_send(seat, frame);
        numbered(number)
    }

    #[inline(never)]
    pub fn receive(&mut self, seat: u8, reply: &[u8], data: &mut [u8]) -> Answer {
        self.try_receive(seat, reply, data).unwrap_or_else(numbered)
    }

    #[inline(never)]
    pub fn leave(&mut self, seat: u8) -> Answer {
        if seat > 7 {
            return numbered(0x10);
        }
        match self.place(seat) {
            None => numbered(0x12),
            Some(place) => {
                self.cut(place);
                numbered(0x03)
            }
        }
    }
}
