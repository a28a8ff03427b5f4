//! Stand-in for the crate heapless: a vector with a fixed capacity.
//!
//! The information loop collects its bytes in one of 131,070. A comparison needs to see what it stored, also where the loop then
//! panics, and to lower the capacity to the lent N: so what is stored by `extend_from_slice` is noted for the thread, and its room
//! can be set.
use std::cell::{Cell, RefCell};
use std::ops::Deref;

thread_local! {
    static ROOM: Cell<usize> = const { Cell::new(usize::MAX) };
    static STORED: RefCell<std::vec::Vec<u8>> = const { RefCell::new(std::vec::Vec::new()) };
}

/// From now on, in this thread, no vector is extended beyond `room` elements; nothing counts as stored yet.
pub fn begin(room: usize) {
    ROOM.with(|cell| cell.set(room));
    STORED.with(|cell| cell.borrow_mut().clear());
}

/// The bytes stored in this thread by `extend_from_slice` since `begin`.
pub fn stored() -> std::vec::Vec<u8> {
    STORED.with(RefCell::take)
}

/// An element that tells its bytes. In the published files only `u8` is stored by `extend_from_slice`.
pub trait Stored: Clone {
    fn bytes(all: &[Self]) -> &[u8]
    where
        Self: Sized;
}

impl Stored for u8 {
    fn bytes(all: &[u8]) -> &[u8] {
        all
    }
}

#[derive(Clone, Debug, PartialEq, Eq)]
pub struct Vec<T, const N: usize>(std::vec::Vec<T>);

impl<T, const N: usize> Vec<T, N> {
    pub const fn new() -> Self {
        Self(std::vec::Vec::new())
    }

    pub fn push(&mut self, item: T) -> Result<(), T> {
        if self.0.len() >= N {
            return Err(item);
        }
        self.0.push(item);
        Ok(())
    }

    #[allow(clippy::result_unit_err)] // as heapless 0.8 has it
    pub fn extend_from_slice(&mut self, other: &[T]) -> Result<(), ()>
    where
        T: Stored,
    {
        if self.0.len() + other.len() > N.min(ROOM.with(Cell::get)) {
            return Err(());
        }
        self.0.extend_from_slice(other);
        STORED.with(|cell| cell.borrow_mut().extend_from_slice(T::bytes(other)));
        Ok(())
    }
}

impl<T, const N: usize> Default for Vec<T, N> {
    fn default() -> Self {
        Self::new()
    }
}

impl<T, const N: usize> Deref for Vec<T, N> {
    type Target = [T];

    fn deref(&self) -> &[T] {
        &self.0
    }
}

#[cfg(test)]
mod tests {
    use super::*;

    #[test]
    fn what_has_no_room_is_refused_and_not_stored() {
        begin(usize::MAX);
        let mut vec = Vec::<u8, 3>::new();
        assert_eq!(vec.extend_from_slice(&[1, 2]), Ok(()));
        assert_eq!(vec.extend_from_slice(&[3, 4]), Err(()));
        assert_eq!(vec.push(5), Ok(()));
        assert_eq!(vec.push(6), Err(6));
        assert_eq!(*vec, [1, 2, 5]);
        assert_eq!(stored(), [1, 2]);
    }

    #[test]
    fn the_room_can_be_lowered_and_not_raised() {
        let mut vec = Vec::<u8, 3>::new();
        begin(1);
        assert_eq!(vec.extend_from_slice(&[1, 2]), Err(()));
        begin(9);
        assert_eq!(vec.extend_from_slice(&[1, 2, 3, 4]), Err(()));
        assert_eq!(vec.extend_from_slice(&[1, 2, 3]), Ok(()));
    }
}
