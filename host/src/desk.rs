use crate::ffi;
use crate::{Answer, Order, Refusal, Seat};
use core::fmt;

/// Eight seats that take turns at one drive's mailbox.
///
/// A task enters its [`Order`] at a seat, and from then on stands in line. The head of the line sends its request and receives
/// the reply, until its transfer ends; then the next one is the head. Whatever the calls of the others are in between, each
/// transfer gets what it would have got alone: that is proved of the functions behind this type.
///
/// A desk belongs to one mailbox. It can't be copied, since two desks at one mailbox are what a desk is there to prevent, and
/// nothing but its calls alters it. Tasks of several threads share one by way of [`SharedDesk`](crate::SharedDesk).
///
/// ```
/// use coe_desk::{Answer, Desk, Order, Refusal, Seat};
///
/// # fn main() -> Result<(), Refusal> {
/// let (first, second) = (Seat::ALL[0], Seat::ALL[1]);
/// let mut desk = Desk::new();
/// desk.enter(first, Order::upload(0x1018, 1))?;
/// desk.enter(second, Order::upload(0x1018, 4))?;
///
/// let mut frame = [0; 16];
/// assert_eq!(desk.send(second, &mut frame), Err(Refusal::NotAtHead));
/// desk.send(first, &mut frame)?;
/// assert_eq!(frame, *b"\x0a\0\0\0\0\x13\0\x20\x40\x18\x10\x01\0\0\0\0");
///
/// let reply = b"\x0a\0\0\0\0\x13\0\x30\x43\x18\x10\x01\x78\x56\x34\x12";
/// let mut data = [0; 4];
/// assert_eq!(desk.receive(first, reply, &mut data)?, Answer::Done { length: 4 });
/// assert_eq!(u32::from_le_bytes(data), 0x1234_5678);
///
/// desk.send(second, &mut frame)
/// # }
/// ```
///
/// ```compile_fail,E0599
/// let second = coe_desk::Desk::new().clone();
/// ```
pub struct Desk {
    record: ffi::Record,
}

impl Desk {
    /// A fresh desk: nobody in line, and the first frame has counter 1.
    pub fn new() -> Desk {
        Desk { record: ffi::Record::fresh() }
    }

    /// Joins the end of the line, with the [`DEFAULT_BUDGET`](crate::DEFAULT_BUDGET) of 1,024 replies.
    ///
    /// # Errors
    /// [`Refusal::SeatTaken`], then [`Refusal::BadOrder`].
    pub fn enter(&mut self, seat: Seat, order: Order<'_>) -> Result<(), Refusal> {
        let (kind, index, sub, data) = order.numbers();
        expect(0x01, self.record.enter(seat.number(), kind, index, sub, data))
    }

    /// Joins the end of the line. A transfer that isn't finished after `budget` replies ends with [`Refusal::BudgetSpent`]. Whoever
    /// fetches a long object list through a small mailbox passes 65,535: see [`DEFAULT_BUDGET`](crate::DEFAULT_BUDGET#who-needs-more).
    ///
    /// # Errors
    /// As of [`enter`](Desk::enter), and [`Refusal::BadOrder`] also for a budget of 0.
    pub fn enter_within(&mut self, seat: Seat, order: Order<'_>, budget: u16) -> Result<(), Refusal> {
        let (kind, index, sub, data) = order.numbers();
        expect(0x01, self.record.enter_within(seat.number(), kind, index, sub, data, budget))
    }

    /// Writes the head's due request to the front of `frame`, and zeros behind it.
    ///
    /// # Errors
    /// In this order [`Refusal::SeatEmpty`], [`Refusal::NotAtHead`], [`Refusal::OtherDue`] and [`Refusal::BufferLength`].
    pub fn send(&mut self, seat: Seat, frame: &mut [u8]) -> Result<(), Refusal> {
        expect(0x02, self.record.send(seat.number(), frame))
    }

    /// Judges one reply for the head, and stores its chunk in `data` behind the chunks before it. Lend the same buffer to every
    /// `receive` of a transfer.
    ///
    /// # Errors
    /// Those of [`send`](Desk::send), after which the transfer goes on, or a 2x, by which it is over.
    pub fn receive(&mut self, seat: Seat, reply: &[u8], data: &mut [u8]) -> Result<Answer, Refusal> {
        let answer = self.record.receive(seat.number(), reply, data);
        match answer.number {
            0x00 => Ok(Answer::Done { length: answer.length as usize }),
            0x01 => Ok(Answer::RequestDue),
            0x02 => Ok(Answer::ReplyDue),
            _ => Err(Refusal::of_answer(answer)),
        }
    }

    /// Takes the transfer at `seat` out, anywhere in the line. A reply still under way is the caller's to read off before the
    /// next request is written.
    ///
    /// # Errors
    /// [`Refusal::SeatEmpty`].
    pub fn leave(&mut self, seat: Seat) -> Result<(), Refusal> {
        expect(0x03, self.record.leave(seat.number()))
    }
}

fn expect(number: u8, answer: ffi::Answer) -> Result<(), Refusal> {
    if answer.number == number {
        Ok(())
    } else {
        Err(Refusal::of_answer(answer))
    }
}

impl Default for Desk {
    fn default() -> Desk {
        Desk::new()
    }
}

/// What the record holds is the desk's own, and is not shown.
impl fmt::Debug for Desk {
    fn fmt(&self, f: &mut fmt::Formatter<'_>) -> fmt::Result {
        f.debug_struct("Desk").finish_non_exhaustive()
    }
}
