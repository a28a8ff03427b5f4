use crate::emergency;
use crate::ffi;
use crate::AbortCode;
use core::fmt;

/// Why a call was refused, or a transfer ended without its payload.
///
/// A number 1x refuses a call: nothing is changed, and the transfer, if there is one, goes on. A number 2x ends the transfer: its
/// seat is free again, and the lent buffers are as they were before the call.
///
/// ```
/// use coe_desk::{AbortCode, Desk, Refusal, Seat};
///
/// let mut desk = Desk::new();
/// assert_eq!(desk.leave(Seat::ALL[3]), Err(Refusal::SeatEmpty));
///
/// let aborted = Refusal::Aborted { code: AbortCode::NotFound, index: 0x1018, sub_index: 4 };
/// assert_eq!(aborted.number(), 0x22);
/// assert!(aborted.is_over());
/// assert_eq!(
///     aborted.to_string(),
///     "the drive aborted the transfer of 0x1018:04: 0x06020000: The object does not exist in the object directory"
/// );
///
/// let too_hot = Refusal::Emergency { code: 0x4210, register: 0x08, data: [1, 2, 3, 4, 5] };
/// assert_eq!(
///     too_hot.to_string(),
///     "the drive sent emergency 0x4210 (device temperature), register 0x08, data 01 02 03 04 05"
/// );
/// ```
#[derive(Debug, Clone, Copy, PartialEq, Eq)]
#[non_exhaustive]
pub enum Refusal {
    /// 10: a seat above 7. A [`Seat`](crate::Seat) can't be one.
    NoSuchSeat,
    /// 11: the seat is taken.
    SeatTaken,
    /// 12: nobody is at the seat.
    SeatEmpty,
    /// 13: another transfer is at the head of the line.
    NotAtHead,
    /// 14: the other of send and receive is due.
    OtherDue,
    /// 15: data of a download not 1 to 4 bytes, or a budget of 0; of a frame's writer also a counter not 1 to 7.
    BadOrder,
    /// 16: a frame buffer not of 16 to 1,486 bytes, a reply above 1,486, or a data buffer above 131,070.
    BufferLength,
    /// 20: too few bytes (a segment reply has at least 9, any other 12, an emergency or an abort 16), or an unlisted type, service,
    /// command or operation. Reads of a payload refuse with it too.
    Undecodable,
    /// 21: the drive sent an emergency message in place of the reply to an upload, a download or a segment's request. It is read as
    /// ETG.1000.6 lays it out; ethercrab panics there, and would take the code from byte 12.
    Emergency {
        /// The error code, bytes 8 and 9: [`emergency_class`](crate::emergency_class) names what it is about.
        code: u16,
        /// The error register, byte 10: the bits of the drive's object 0x1001.
        register: u8,
        /// Bytes 11 to 15, as they came. What they say is the drive's own.
        data: [u8; 5],
    },
    /// 22: the drive aborted the transfer.
    Aborted {
        /// Why.
        code: AbortCode,
        /// The index that the drive names.
        index: u16,
        /// The sub-index that the drive names.
        sub_index: u8,
    },
    /// 23: a reply of another type, or of another object than the request's.
    WrongReply,
    /// 24: the object's complete size is above the data buffer's length.
    TooLarge,
    /// 25: the reply names bytes that are not there, or that the data buffer has no room for.
    MissingBytes,
    /// 26: the reply's length field is below 3 (a segment) or 8 (a list).
    LengthField,
    /// 27: the reply budget is spent, and the transfer not finished. Where the drive is not faulty but its mailbox small, pass a
    /// greater one: see [`DEFAULT_BUDGET`](crate::DEFAULT_BUDGET#who-needs-more).
    BudgetSpent,
    /// A number that this crate has no name for: the archive that is linked is newer than the crate.
    Unnamed {
        /// The number.
        number: u8,
    },
}

impl Refusal {
    pub(crate) fn of_answer(answer: ffi::Answer) -> Refusal {
        match answer.number {
            // The drive's code has sixteen bits; the answer's field is as wide as an abort needs.
            0x21 => Refusal::Emergency { code: answer.code as u16, register: answer.sub, data: five_bytes(answer.data) },
            0x22 => Refusal::Aborted { code: AbortCode::from(answer.code), index: answer.index, sub_index: answer.sub },
            number => Refusal::of_number(number),
        }
    }

    pub(crate) fn of_number(number: u8) -> Refusal {
        match number {
            0x10 => Refusal::NoSuchSeat,
            0x11 => Refusal::SeatTaken,
            0x12 => Refusal::SeatEmpty,
            0x13 => Refusal::NotAtHead,
            0x14 => Refusal::OtherDue,
            0x15 => Refusal::BadOrder,
            0x16 => Refusal::BufferLength,
            0x20 => Refusal::Undecodable,
            0x23 => Refusal::WrongReply,
            0x24 => Refusal::TooLarge,
            0x25 => Refusal::MissingBytes,
            0x26 => Refusal::LengthField,
            0x27 => Refusal::BudgetSpent,
            number => Refusal::Unnamed { number },
        }
    }

    /// The specification's number.
    pub const fn number(self) -> u8 {
        match self {
            Refusal::NoSuchSeat => 0x10,
            Refusal::SeatTaken => 0x11,
            Refusal::SeatEmpty => 0x12,
            Refusal::NotAtHead => 0x13,
            Refusal::OtherDue => 0x14,
            Refusal::BadOrder => 0x15,
            Refusal::BufferLength => 0x16,
            Refusal::Undecodable => 0x20,
            Refusal::Emergency { .. } => 0x21,
            Refusal::Aborted { .. } => 0x22,
            Refusal::WrongReply => 0x23,
            Refusal::TooLarge => 0x24,
            Refusal::MissingBytes => 0x25,
            Refusal::LengthField => 0x26,
            Refusal::BudgetSpent => 0x27,
            Refusal::Unnamed { number } => number,
        }
    }

    /// Whether the transfer has ended by it (2x). Otherwise the call changed nothing (1x).
    pub const fn is_over(self) -> bool {
        self.number() >= 0x20
    }
}

/// An answer's `data` holds five bytes, the first lowest.
fn five_bytes(data: u64) -> [u8; 5] {
    let [first, second, third, fourth, fifth, ..] = data.to_le_bytes();
    [first, second, third, fourth, fifth]
}

impl fmt::Display for Refusal {
    fn fmt(&self, f: &mut fmt::Formatter<'_>) -> fmt::Result {
        f.write_str(match self {
            Refusal::NoSuchSeat => "no such seat: a desk has the seats 0 to 7",
            Refusal::SeatTaken => "the seat is taken: wait until its transfer has ended, or take another",
            Refusal::SeatEmpty => "nobody is at the seat: enter an order first",
            Refusal::NotAtHead => "not at the head of the line: wait until the transfers ahead have ended",
            Refusal::OtherDue => "the other of send and receive is due",
            Refusal::BadOrder => "no such order: a download has 1 to 4 bytes, a budget is at least 1, a counter is 1 to 7",
            Refusal::BufferLength => {
                "a buffer's length: a frame buffer has 16 to 1486 bytes, a reply at most 1486, a data buffer at most 131070"
            }
            Refusal::Undecodable => "undecodable: too few bytes, or a number in them that is not listed",
            Refusal::Emergency { code, register, data } => return emergency::show(f, *code, *register, *data),
            Refusal::Aborted { code, index, sub_index } => {
                return write!(f, "the drive aborted the transfer of {index:#06x}:{sub_index:02x}: {code}")
            }
            Refusal::WrongReply => "the reply answers no request of this transfer: its type, index or sub-index is another",
            Refusal::TooLarge => "the object is larger than the data buffer: lend a longer one",
            Refusal::MissingBytes => "the reply names bytes that are not there, or that the data buffer has no room for",
            Refusal::LengthField => "the reply's length field is too small: below 3 of a segment, or 8 of a list",
            Refusal::BudgetSpent => {
                "the drive sent as many replies as the budget allows, and is not finished: it is faulty, or needs a greater budget"
            }
            Refusal::Unnamed { number } => return write!(f, "number {number:02x}: the linked archive is newer than this crate"),
        })
    }
}

#[cfg(feature = "std")]
impl std::error::Error for Refusal {}
