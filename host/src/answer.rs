/// What a reply that was accepted leaves its transfer with: the answer of [`Desk::receive`](crate::Desk::receive).
#[derive(Debug, Clone, Copy, PartialEq, Eq)]
pub enum Answer {
    /// 00: the transfer is done and its seat free again.
    Done {
        /// The payload's length. The first bytes of the data buffer are the payload, as many as it has room for: a drive that
        /// sends four bytes where two were lent is answered with 4, and two bytes stand in the buffer.
        length: usize,
    },
    /// 01: more is to come, and the drive waits to be asked for it: [`Desk::send`](crate::Desk::send) is due.
    RequestDue,
    /// 02: the drive sends on by itself: the next [`Desk::receive`](crate::Desk::receive) is due.
    ReplyDue,
}

impl Answer {
    /// The specification's number of the answer.
    pub const fn number(self) -> u8 {
        match self {
            Answer::Done { .. } => 0x00,
            Answer::RequestDue => 0x01,
            Answer::ReplyDue => 0x02,
        }
    }
}
