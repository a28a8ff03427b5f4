use super::SharedDesk;
use crate::{Answer, Mailbox, Refusal, Seat, TransferError, DEFAULT_BUDGET, FRAME_LENGTH, LONGEST_REPLY};

/// A transfer at the desk. Whichever way it goes out of scope, its seat is free afterwards and the others are told.
pub(super) struct Turn<'s> {
    shared: &'s SharedDesk,
    seat: Seat,
    /// How many late replies are read off before the drive is taken to talk without end.
    most_late_replies: u16,
    /// The desk has ended the transfer, so that the seat may be another's already.
    over: bool,
    /// A request is written, and not all of its replies have come.
    reply_due: bool,
}

impl<'s> Turn<'s> {
    pub(super) fn new(shared: &'s SharedDesk, seat: Seat, budget: u16) -> Turn<'s> {
        Turn { shared, seat, most_late_replies: budget.max(DEFAULT_BUDGET), over: false, reply_due: false }
    }

    /// Does the transfer and gives the payload's length back.
    pub(super) fn run<M: Mailbox>(mut self, data: &mut [u8], mailbox: &mut M) -> Result<usize, TransferError<M::Error>> {
        let mut frame = [0; FRAME_LENGTH];
        let late_replies = self.first_request(&mut frame)?;
        if late_replies {
            self.read_off(mailbox)?;
        }
        loop {
            self.reply_due = true;
            mailbox.write(&frame).map_err(TransferError::Mailbox)?;
            if let Some(length) = self.take_replies(data, mailbox)? {
                return Ok(length);
            }
            self.shared.lock().desk.send(self.seat, &mut frame)?;
        }
    }

    /// Waits for the head of the line, has the first request written to `frame`, and says whether late replies may come.
    fn first_request(&self, frame: &mut [u8]) -> Result<bool, Refusal> {
        let mut state = self.shared.lock();
        loop {
            match state.desk.send(self.seat, frame) {
                Err(Refusal::NotAtHead) => state = self.shared.wait(state),
                sent => return sent.map(|()| state.late_replies),
            }
        }
    }

    /// Reads until no reply comes. Nobody else is at the mailbox: the desk has this transfer at its head, with a reply due.
    fn read_off<M: Mailbox>(&self, mailbox: &mut M) -> Result<(), TransferError<M::Error>> {
        let mut reply = [0; LONGEST_REPLY];
        for _ in 0..self.most_late_replies {
            if mailbox.read(&mut reply, self.shared.settling).map_err(TransferError::Mailbox)?.is_none() {
                self.shared.lock().late_replies = false;
                return Ok(());
            }
        }
        Err(TransferError::NeverQuiet)
    }

    /// Takes the replies to one request: the payload's length, or `None` where another request is due.
    fn take_replies<M: Mailbox>(&mut self, data: &mut [u8], mailbox: &mut M) -> Result<Option<usize>, TransferError<M::Error>> {
        let mut buffer = [0; LONGEST_REPLY];
        loop {
            let read = mailbox.read(&mut buffer, self.shared.reply_timeout).map_err(TransferError::Mailbox)?;
            let length = read.ok_or(TransferError::TimedOut)?;
            // A mailbox that says more than it was lent: the reply is above 1,486 bytes.
            let reply = buffer.get(..length).ok_or(Refusal::BufferLength)?;
            match self.receive(reply, data)? {
                Answer::Done { length } => return Ok(Some(length)),
                Answer::RequestDue => return Ok(None),
                Answer::ReplyDue => {}
            }
        }
    }

    /// One reply to the desk. That replies may be late is noted before another transfer can be the head.
    fn receive(&mut self, reply: &[u8], data: &mut [u8]) -> Result<Answer, Refusal> {
        let mut state = self.shared.lock();
        let answer = state.desk.receive(self.seat, reply, data);
        match answer {
            Ok(Answer::ReplyDue) => {}
            Ok(Answer::RequestDue) => self.reply_due = false,
            Ok(Answer::Done { .. }) | Err(Refusal::Aborted { .. }) => self.over = true,
            Err(refusal) => {
                self.over = refusal.is_over();
                state.late_replies |= self.over;
            }
        }
        answer
    }
}

impl Drop for Turn<'_> {
    fn drop(&mut self) {
        let mut state = self.shared.lock();
        if !self.over {
            state.late_replies |= self.reply_due;
            // The seat is this transfer's until here, so that the desk has nothing to refuse.
            let _ = state.desk.leave(self.seat);
        }
        drop(state);
        self.shared.changed.notify_all();
    }
}
