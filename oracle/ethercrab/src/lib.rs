//! ethercrab 0.7.1's files under src/mailbox and its sync_manager_channel.rs, unchanged, and what they lean on: no bus, but a mailbox
//! that answers from a script. Everything in this folder is a stand-in; `play` runs a call of the published code.
// Debian's rustc 1.63 has them as features; in newer ones they are plain Rust.
#![allow(stable_features, unknown_lints)]
#![feature(arbitrary_enum_discriminant, let_else, result_option_inspect)]

#[macro_use]
pub mod assertion;
pub mod error;
mod fmt;
pub mod frames;
#[allow(clippy::unit_arg, dead_code, mismatched_lifetime_syntaxes, unexpected_cfgs)]
#[path = "../../published/src/mailbox/mod.rs"]
#[rustfmt::skip]
mod mailbox;
mod pdu_loop;
pub mod play;
mod register;
mod script;
mod subdevice;
#[allow(dead_code)]
#[path = "../../published/src/sync_manager_channel.rs"]
#[rustfmt::skip]
mod sync_manager_channel;
mod timer_factory;

pub use ethercrab_wire as wire;
pub use mailbox::coe::services::{ObjectDescriptionListQuery, ObjectDescriptionListQueryCounts};
pub use mailbox::coe::{Coe, CoeAbortCode, SubIndex};
pub use script::Script;
pub use subdevice::{MailboxConfig, SubDevice, SubDeviceRef};
