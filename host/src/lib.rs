#![doc = include_str!("../README.md")]
#![no_std]
#![deny(missing_docs)]
#![deny(unsafe_code)]
#![forbid(unsafe_op_in_unsafe_fn)]

#[cfg(feature = "std")]
extern crate std;

mod abort;
mod answer;
mod desk;
mod emergency;
#[allow(unsafe_code)]
mod ffi;
pub mod frames;
mod judge;
#[cfg(feature = "std")]
mod mailbox;
mod order;
mod payload;
pub mod reads;
mod refusal;
mod seat;
#[cfg(feature = "std")]
mod shared;
#[cfg(feature = "std")]
mod transfer_error;

pub use abort::AbortCode;
pub use answer::Answer;
pub use desk::Desk;
pub use emergency::emergency_class;
pub use judge::{judge, Expected, Judged};
pub use order::{ListKind, Order, SubIndex};
pub use payload::Payload;
pub use refusal::Refusal;
pub use seat::Seat;
#[cfg(feature = "std")]
pub use {mailbox::Mailbox, shared::SharedDesk, transfer_error::TransferError};

/// The bytes of the longest request. A shorter frame buffer is refused with [`Refusal::BufferLength`].
pub const FRAME_LENGTH: usize = 16;

/// The bytes of the longest reply, and of the longest frame buffer.
pub const LONGEST_REPLY: usize = 1486;

/// The bytes of the longest data buffer: an object list of 65,535 indices.
pub const LONGEST_DATA: usize = 131_070;

/// How many replies a transfer may take whose call names no budget: [`Desk::enter`], [`SharedDesk::transfer`]. One that isn't finished
/// by then ends with [`Refusal::BudgetSpent`], so that a faulty drive doesn't keep the line for long.
///
/// # Who needs more
/// Nobody whose drive has a mailbox of 142 bytes or more and fills its replies: they bring anything that a data buffer holds. Through
/// a smaller one they bring a list of so many indices, or so many bytes of an object that comes in segments:
///
/// | mailbox | indices | bytes |
/// |---|---|---|
/// | 16 | 1,024 | 7,161 |
/// | 32 | 9,216 | 23,529 |
/// | 64 | 25,600 | 56,265 |
/// | 128 | 58,368 | 121,737 |
///
/// Who fetches more than that passes a budget, to [`Desk::enter_within`] or [`SharedDesk::transfer_within`]: 65,535 is enough for
/// anything, since a list has no more indices, and a reply brings one at least.
pub const DEFAULT_BUDGET: u16 = 1024;
