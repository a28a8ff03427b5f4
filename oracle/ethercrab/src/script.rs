//! Stand-in: the drive's two mailboxes, answering from a script.
//!
//! The request mailbox is always free. The reply mailbox is full after a request until its reply is read, and after an information
//! request as long as replies are left. Asked for a reply when none is left, it says `RepliesUsedUp`.
use crate::error::Error;
use crate::subdevice::{READ_MAILBOX, WRITE_MAILBOX};
use crate::timer_factory::Timeouts;
use std::cell::{Cell, RefCell};
use std::collections::VecDeque;

const READ_STATUS: u16 = 0x080d;
const WRITE_STATUS: u16 = 0x0805;
const EMPTY: u8 = 0x00;
const FULL: u8 = 0x08;
const INFORMATION: u8 = 8;

#[derive(Debug, Default)]
pub struct Script {
    /// Replies that lie in the mailbox before the first request.
    pub stale: RefCell<VecDeque<Vec<u8>>>,
    pub replies: RefCell<VecDeque<Vec<u8>>>,
    /// The requests, as long as the mailbox that they were written to: zeros stand behind what was packed.
    pub sent: RefCell<Vec<Vec<u8>>>,
    /// How many of `replies` were handed out.
    pub judged: Cell<usize>,
    reply_due: Cell<bool>,
    pub(crate) timeouts: Timeouts,
}

impl Script {
    pub fn new(replies: &[Vec<u8>]) -> Self {
        Self { replies: RefCell::new(replies.iter().cloned().collect()), ..Self::default() }
    }

    pub(crate) fn register(&self, address: u16) -> Result<u8, Error> {
        match address {
            WRITE_STATUS => Ok(EMPTY),
            READ_STATUS if !self.stale.borrow().is_empty() => Ok(FULL),
            READ_STATUS if !self.reply_due.get() => Ok(EMPTY),
            READ_STATUS if self.replies.borrow().is_empty() => Err(Error::RepliesUsedUp),
            READ_STATUS => Ok(FULL),
            other => panic!("register {other:#06x} is not scripted"),
        }
    }

    pub(crate) fn take_reply(&self, address: u16) -> Result<Vec<u8>, Error> {
        assert_eq!(address, READ_MAILBOX.address);
        if let Some(old) = self.stale.borrow_mut().pop_front() {
            return Ok(old);
        }
        let reply = self.replies.borrow_mut().pop_front().ok_or(Error::RepliesUsedUp)?;
        self.judged.set(self.judged.get() + 1);
        let of_information = |frame: &Vec<u8>| frame[7] >> 4 == INFORMATION;
        self.reply_due.set(self.sent.borrow().last().map_or(false, of_information));
        Ok(reply)
    }

    pub(crate) fn put_request(&self, address: u16, mut frame: Vec<u8>, len: u16) {
        assert_eq!(address, WRITE_MAILBOX.address);
        assert!(frame.len() <= usize::from(len));
        frame.resize(len.into(), 0);
        self.sent.borrow_mut().push(frame);
        self.reply_due.set(true);
    }
}
