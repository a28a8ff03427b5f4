//! The two sides of a comparison.
pub mod guarded;
pub mod judge;
pub mod ours;
pub mod shifted;
pub mod theirs;
