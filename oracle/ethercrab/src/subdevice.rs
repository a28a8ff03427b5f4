//! Stand-in: one subdevice, and reads and writes of it that end at once.
use crate::error::Error;
use crate::pdu_loop::ReceivedPdu;
use crate::script::Script;
use ethercrab_wire::{EtherCrabWireRead, EtherCrabWireWrite};
use std::cell::Cell;
use std::ops::Deref;

pub(crate) const READ_MAILBOX: Mailbox = Mailbox { address: 0x1080, len: 1486, sync_manager: 1 };
pub(crate) const WRITE_MAILBOX: Mailbox = Mailbox { address: 0x1000, len: 16, sync_manager: 0 };

#[derive(Debug, Copy, Clone, PartialEq, Eq)]
pub struct Mailbox {
    pub(crate) address: u16,
    pub(crate) len: u16,
    pub(crate) sync_manager: u8,
}

#[derive(Debug, Copy, Clone)]
pub struct MailboxConfig {
    pub(crate) read: Option<Mailbox>,
    pub(crate) write: Option<Mailbox>,
    pub(crate) complete_access: bool,
}

impl MailboxConfig {
    pub const NONE: Self = Self { read: None, write: None, complete_access: false };
    pub const BOTH: Self = Self { read: Some(READ_MAILBOX), write: Some(WRITE_MAILBOX), complete_access: true };
}

#[derive(Debug, Copy, Clone)]
pub struct SubDeviceConfig {
    pub(crate) mailbox: MailboxConfig,
}

#[derive(Debug)]
pub struct SubDevice {
    pub(crate) config: SubDeviceConfig,
    counter: Cell<u8>,
}

impl SubDevice {
    pub fn new(mailbox: MailboxConfig, counter: u8) -> Self {
        Self { config: SubDeviceConfig { mailbox }, counter: Cell::new(counter) }
    }

    /// The counter of the next request.
    pub fn counter(&self) -> u8 {
        self.counter.get()
    }

    /// OPEN: the first counter, which the host of this crate gives. 7 is followed by 1: the comment in `MailboxHeader`.
    pub(crate) fn mailbox_counter(&self) -> u8 {
        let now = self.counter.get();
        self.counter.set(if now >= 7 { 1 } else { now + 1 });
        now
    }
}

pub struct SubDeviceRef<'maindevice, S> {
    pub(crate) maindevice: &'maindevice Script,
    pub(crate) state: S,
}

impl<'maindevice, S> SubDeviceRef<'maindevice, S>
where
    S: Deref<Target = SubDevice>,
{
    pub fn new(maindevice: &'maindevice Script, state: S) -> Self {
        Self { maindevice, state }
    }

    pub(crate) fn configured_address(&self) -> u16 {
        0x1000
    }

    pub(crate) fn name(&self) -> &str {
        "script"
    }

    pub(crate) fn read(&self, address: impl Into<u16>) -> WrappedRead {
        WrappedRead { address: address.into() }
    }

    pub(crate) fn write(&self, address: impl Into<u16>) -> WrappedWrite {
        WrappedWrite { address: address.into(), len: 0 }
    }
}

impl<S> Deref for SubDeviceRef<'_, S>
where
    S: Deref<Target = SubDevice>,
{
    type Target = SubDevice;

    fn deref(&self) -> &SubDevice {
        &self.state
    }
}

pub struct WrappedRead {
    address: u16,
}

impl WrappedRead {
    pub(crate) fn ignore_wkc(self) -> Self {
        self
    }

    pub(crate) async fn receive<T: EtherCrabWireRead>(self, main: &Script) -> Result<T, Error> {
        Ok(T::unpack_from_slice(&[main.register(self.address)?])?)
    }

    pub(crate) async fn receive_slice(self, main: &Script, _len: u16) -> Result<ReceivedPdu<'_>, Error> {
        Ok(ReceivedPdu::new(main.take_reply(self.address)?))
    }
}

pub struct WrappedWrite {
    address: u16,
    len: u16,
}

impl WrappedWrite {
    pub(crate) fn with_len(self, len: u16) -> Self {
        Self { len, ..self }
    }

    pub(crate) async fn send(self, main: &Script, data: impl EtherCrabWireWrite) -> Result<(), Error> {
        let mut frame = vec![0; data.packed_len()];
        data.pack_to_slice(&mut frame)?;
        main.put_request(self.address, frame, self.len);
        Ok(())
    }
}
