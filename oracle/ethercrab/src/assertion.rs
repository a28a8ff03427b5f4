//! Stand-in: `assert_ne!`, which the published code has once, against emergencies. It asserts as Rust's own does, unless a test asks what
//! stands behind it.
use std::cell::Cell;

thread_local! {
    static ASSERTS: Cell<bool> = const { Cell::new(true) };
}

macro_rules! assert_ne {
    ($($arg:tt)*) => {
        if crate::assertion::asserts() {
            ::core::assert_ne!($($arg)*);
        }
    };
}

pub(crate) fn asserts() -> bool {
    ASSERTS.with(Cell::get)
}

/// What the published code does behind its assertion.
pub fn without<T>(run: impl FnOnce() -> T) -> T {
    ASSERTS.with(|cell| cell.set(false));
    let done = run();
    ASSERTS.with(|cell| cell.set(true));
    done
}
