use core::time::Duration;

/// A drive's mailbox, as the host reaches it: what [`SharedDesk::transfer`](crate::SharedDesk::transfer) writes to and reads
/// from.
///
/// Each task has a handle of its own to the one mailbox. At any time only the task whose turn it is uses its handle, and the
/// others wait until it is done: a `read` that outlasts its timeout keeps them all, and one that asks the same desk for a
/// transfer waits for itself.
///
/// ```
/// use coe_desk::Mailbox;
/// use std::{collections::VecDeque, convert::Infallible, time::Duration};
///
/// /// A drive that gives the same replies to whatever it is asked.
/// struct Scripted(VecDeque<Vec<u8>>);
///
/// impl Mailbox for Scripted {
///     type Error = Infallible;
///
///     fn write(&mut self, _frame: &[u8]) -> Result<(), Infallible> {
///         Ok(())
///     }
///
///     fn read(&mut self, reply: &mut [u8], _timeout: Duration) -> Result<Option<usize>, Infallible> {
///         Ok(self.0.pop_front().map(|frame| {
///             reply[..frame.len()].copy_from_slice(&frame);
///             frame.len()
///         }))
///     }
/// }
/// ```
pub trait Mailbox {
    /// What can go wrong on the way to the drive.
    type Error;

    /// Writes a request of 16 bytes to the drive's mailbox. What the mailbox has behind them does not matter.
    ///
    /// # Errors
    /// Whatever the way to the drive has. The transfer leaves the desk then.
    fn write(&mut self, frame: &[u8]) -> Result<(), Self::Error>;

    /// Reads one reply to the front of `reply` (1,486 bytes) and gives its length back, or `None` where none has come within
    /// `timeout`. A timeout of zero asks for a reply that is there already.
    ///
    /// # Errors
    /// Whatever the way to the drive has. The transfer leaves the desk then.
    fn read(&mut self, reply: &mut [u8], timeout: Duration) -> Result<Option<usize>, Self::Error>;
}

impl<M: Mailbox + ?Sized> Mailbox for &mut M {
    type Error = M::Error;

    fn write(&mut self, frame: &[u8]) -> Result<(), M::Error> {
        (**self).write(frame)
    }

    fn read(&mut self, reply: &mut [u8], timeout: Duration) -> Result<Option<usize>, M::Error> {
        (**self).read(reply, timeout)
    }
}
