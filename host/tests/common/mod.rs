//! What the tests share.
pub mod drive;
