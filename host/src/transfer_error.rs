use crate::Refusal;
use core::fmt;

/// Why [`SharedDesk::transfer`](crate::SharedDesk::transfer) brought no payload. Whatever it is, the transfer has left the desk.
#[derive(Debug, Clone, Copy, PartialEq, Eq)]
#[non_exhaustive]
pub enum TransferError<E> {
    /// The desk refused the order or ended the transfer.
    Refused(Refusal),
    /// No reply came in time.
    TimedOut,
    /// The mailbox failed.
    Mailbox(E),
    /// Late replies of an earlier transfer did not come to an end, so that nothing was sent. Where they are the rest of a long list,
    /// the next calls read on, and one with a greater budget reads more of them.
    NeverQuiet,
}

impl<E> From<Refusal> for TransferError<E> {
    fn from(refusal: Refusal) -> TransferError<E> {
        TransferError::Refused(refusal)
    }
}

impl<E: fmt::Display> fmt::Display for TransferError<E> {
    fn fmt(&self, f: &mut fmt::Formatter<'_>) -> fmt::Result {
        match self {
            TransferError::Refused(refusal) => refusal.fmt(f),
            TransferError::TimedOut => f.write_str("the drive sent no reply in time"),
            TransferError::Mailbox(error) => write!(f, "the mailbox failed: {error}"),
            TransferError::NeverQuiet => f.write_str(
                "replies to an earlier request keep coming, so nothing was sent: is there another master, or a long list?",
            ),
        }
    }
}

impl<E: std::error::Error + 'static> std::error::Error for TransferError<E> {
    fn source(&self) -> Option<&(dyn std::error::Error + 'static)> {
        match self {
            TransferError::Mailbox(error) => Some(error),
            _ => None,
        }
    }
}
