//! Stand-in: the errors that src/mailbox names, and one for a script without a further reply.
use crate::mailbox::coe::CoeAbortCode;
use ethercrab_wire::WireError;
use std::fmt;

#[derive(Debug, Copy, Clone, PartialEq, Eq)]
pub enum Error {
    Wire(WireError),
    Pdu(PduError),
    Mailbox(MailboxError),
    Capacity(Item),
    Internal,
    /// Not the source's, where it would be a timeout.
    RepliesUsedUp,
}

#[derive(Debug, Copy, Clone, PartialEq, Eq)]
pub enum PduError {
    Decode,
}

#[derive(Debug, Copy, Clone, PartialEq, Eq)]
pub enum Item {
    SdoSubIndex,
}

#[derive(Debug, Copy, Clone, PartialEq, Eq)]
pub enum MailboxError {
    Aborted { code: CoeAbortCode, address: u16, sub_index: u8 },
    Emergency { error_code: u16, error_register: u8 },
    TooLong { address: u16, sub_index: u8 },
    NoReadMailbox,
    NoWriteMailbox,
    SdoResponseInvalid { address: u16, sub_index: u8 },
}

impl From<WireError> for Error {
    fn from(error: WireError) -> Self {
        Self::Wire(error)
    }
}

impl fmt::Display for Error {
    fn fmt(&self, f: &mut fmt::Formatter<'_>) -> fmt::Result {
        write!(f, "{self:?}")
    }
}
