#[cfg(test)]
mod tests;
mod turn;

use crate::{Desk, Mailbox, Order, Payload, Refusal, Seat, TransferError, DEFAULT_BUDGET};
use core::fmt;
use core::time::Duration;
use std::sync::{Condvar, Mutex, MutexGuard, PoisonError};
use turn::Turn;

/// A desk that tasks of several threads share: each calls [`transfer`](SharedDesk::transfer) and waits its turn.
///
/// # Order
/// Transfers are served in the order in which the calls came, the desk's order of entry; the calls beyond eight wait for a seat,
/// in order too. A drive that is slow, or sends one reply after another, keeps the others waiting: for 1,024 replies at most, or as
/// many as [`transfer_within`](SharedDesk::transfer_within) is told. While one task waits for its drive, the others can enter: no
/// lock is held during a mailbox's `write` and `read`.
///
/// # Late replies
/// A transfer that ends before its last reply has come (by a timeout, a failing mailbox, a panic, or any refusal 2x but an abort
/// of the drive) may leave replies under way, which the next transfer must not take for its own. So the next one, before it
/// writes anything, reads and drops replies until none comes within the settling time. That is the reply timeout, unless
/// [`settling`](SharedDesk::settling) sets another. It drops as many as its budget, and 1,024 at least, before it gives up with
/// [`TransferError::NeverQuiet`]. A reply that is later still can't be told from the right one by its time; the desk compares its
/// index and sub-index, which a segment doesn't have. So a drive that may take long needs long times here.
///
/// # Panics of a mailbox
/// A panic in a mailbox's `write` or `read` takes its own transfer out of the desk, and the others go on. A poisoned lock is no
/// obstacle: the desk's record is whole after every call, and nothing that can panic runs while the lock is held.
///
/// # Example
/// ```
/// use coe_desk::{Mailbox, Order, SharedDesk};
/// use std::time::Duration;
/// # struct Handle;
/// # impl Mailbox for Handle {
/// #     type Error = std::convert::Infallible;
/// #     fn write(&mut self, _: &[u8]) -> Result<(), Self::Error> { Ok(()) }
/// #     fn read(&mut self, reply: &mut [u8], _: Duration) -> Result<Option<usize>, Self::Error> {
/// #         reply[..16].copy_from_slice(b"\x0a\0\0\0\0\x13\0\x30\x43\x18\x10\x04\x40\xe2\x01\0");
/// #         Ok(Some(16))
/// #     }
/// # }
///
/// let desk = SharedDesk::new(Duration::from_millis(100));
/// std::thread::scope(|tasks| {
///     for _ in 0..10 {
///         tasks.spawn(|| {
///             let mut data = [0; 4];
///             let serial = desk.transfer(Order::upload(0x1018, 4), &mut data, &mut Handle).unwrap().u32();
///             assert_eq!(serial, Ok(123_456));
///         });
///     }
/// });
/// ```
pub struct SharedDesk {
    state: Mutex<State>,
    changed: Condvar,
    reply_timeout: Duration,
    settling: Duration,
}

struct State {
    desk: Desk,
    /// Calls so far, and how many of them have been at the desk: the calls wait for a seat in this order.
    calls: u64,
    seen_to: u64,
    /// Whether an ended transfer's replies may still come.
    late_replies: bool,
}

impl SharedDesk {
    /// A fresh desk, whose transfers wait at most `reply_timeout` for each reply.
    pub fn new(reply_timeout: Duration) -> SharedDesk {
        let state = State { desk: Desk::new(), calls: 0, seen_to: 0, late_replies: false };
        SharedDesk { state: Mutex::new(state), changed: Condvar::new(), reply_timeout, settling: reply_timeout }
    }

    /// The same desk with another settling time: see [late replies](SharedDesk#late-replies).
    #[must_use]
    pub fn settling(mut self, settling: Duration) -> SharedDesk {
        self.settling = settling;
        self
    }

    /// Waits its turn, does the whole transfer and gives its payload back, which stands at the front of `data`. It takes the
    /// [`DEFAULT_BUDGET`] of 1,024 replies at most.
    ///
    /// # Errors
    /// A [`TransferError`]. The transfer has left the desk then, and the next one has its turn.
    pub fn transfer<'d, M: Mailbox>(
        &self,
        order: Order<'_>,
        data: &'d mut [u8],
        mailbox: &mut M,
    ) -> Result<Payload<'d>, TransferError<M::Error>> {
        self.transfer_within(order, DEFAULT_BUDGET, data, mailbox)
    }

    /// The same with a budget of its own: a drive that sends more replies ends the transfer. Whoever fetches a long object list
    /// through a small mailbox passes 65,535: see [`DEFAULT_BUDGET`](DEFAULT_BUDGET#who-needs-more).
    ///
    /// ```
    /// # use coe_desk::{ListKind, Mailbox, Order, Payload, SharedDesk, TransferError};
    /// # fn list<'d, M: Mailbox>(desk: SharedDesk, data: &'d mut [u8], mailbox: &mut M) -> Result<Payload<'d>, TransferError<M::Error>> {
    /// desk.transfer_within(Order::ObjectList(ListKind::All), 65_535, data, mailbox)
    /// # }
    /// ```
    ///
    /// # Errors
    /// As of [`transfer`](SharedDesk::transfer).
    pub fn transfer_within<'d, M: Mailbox>(
        &self,
        order: Order<'_>,
        budget: u16,
        data: &'d mut [u8],
        mailbox: &mut M,
    ) -> Result<Payload<'d>, TransferError<M::Error>> {
        let turn = self.seated(order, budget)?;
        turn.run(data, mailbox).map(|length| Payload::new(data, length))
    }

    /// Waits until the calls before this one have been at the desk and a seat is free, and enters there.
    fn seated(&self, order: Order<'_>, budget: u16) -> Result<Turn<'_>, Refusal> {
        let mut state = self.lock();
        let call = state.calls;
        state.calls += 1;
        loop {
            if state.seen_to == call {
                let entered = enter_anywhere(&mut state.desk, order, budget);
                if entered != Err(Refusal::SeatTaken) {
                    state.seen_to += 1;
                    self.changed.notify_all();
                    return entered.map(|seat| Turn::new(self, seat, budget));
                }
            }
            state = self.wait(state);
        }
    }

    fn lock(&self) -> MutexGuard<'_, State> {
        self.state.lock().unwrap_or_else(PoisonError::into_inner)
    }

    fn wait<'s>(&self, state: MutexGuard<'s, State>) -> MutexGuard<'s, State> {
        self.changed.wait(state).unwrap_or_else(PoisonError::into_inner)
    }
}

/// Enters at the first seat that is not taken; [`Refusal::SeatTaken`] where all are.
fn enter_anywhere(desk: &mut Desk, order: Order<'_>, budget: u16) -> Result<Seat, Refusal> {
    for seat in Seat::ALL {
        match desk.enter_within(seat, order, budget) {
            Err(Refusal::SeatTaken) => {}
            entered => return entered.map(|()| seat),
        }
    }
    Err(Refusal::SeatTaken)
}

impl fmt::Debug for SharedDesk {
    fn fmt(&self, f: &mut fmt::Formatter<'_>) -> fmt::Result {
        f.debug_struct("SharedDesk")
            .field("reply_timeout", &self.reply_timeout)
            .field("settling", &self.settling)
            .finish_non_exhaustive()
    }
}
