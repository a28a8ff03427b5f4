//! Plays one call of the published code against a script of replies.
use crate::error::Error;
use crate::{Coe, MailboxConfig, ObjectDescriptionListQuery, Script, SubDevice, SubDeviceRef, SubIndex};
use ethercrab_wire::{EtherCrabWireRead, EtherCrabWireSized, EtherCrabWireWrite, WireError};
use std::cell::{Cell, RefCell};
use std::future::Future;
use std::panic::{catch_unwind, AssertUnwindSafe};
use std::pin::Pin;
use std::sync::Arc;
use std::task::{Context, Poll, Wake, Waker};

#[derive(Debug, Clone, Copy, PartialEq, Eq)]
pub enum Number {
    U8,
    U16,
    U32,
    I8,
    I16,
    I32,
}

#[derive(Debug, Clone, Copy)]
pub enum Call<'a> {
    /// `sdo_read` of a type whose buffer has as many bytes as `Lent` says.
    Read {
        index: u16,
        access: SubIndex,
    },
    /// `sdo_read` of a number, whose buffer has its size.
    ReadNumber {
        index: u16,
        access: SubIndex,
        number: Number,
    },
    Write {
        index: u16,
        access: SubIndex,
        data: &'a [u8],
    },
    List {
        kind: u8,
    },
    Quantities,
}

/// What a host of ours lends, and the Rust has in its types.
#[derive(Debug, Clone, Copy)]
pub struct Lent {
    pub counter: u8,
    /// The length of the buffer of `Call::Read`.
    pub buffer: usize,
    /// What stands in that buffer at first.
    pub fill: u8,
    /// The capacity of the information loop's buffer, where it is below 131,070.
    pub capacity: usize,
}

#[derive(Debug, Clone, PartialEq, Eq)]
pub enum Outcome {
    Payload(Vec<u8>),
    Numbers(Vec<i64>),
    Refused(Error),
    Panicked(String),
}

#[derive(Debug, Clone, PartialEq, Eq)]
pub struct Played {
    pub outcome: Outcome,
    pub sent: Vec<Vec<u8>>,
    pub judged: usize,
    /// The counter of the next request.
    pub counter: u8,
    /// The buffer of `Call::Read` at the end.
    pub buffer: Vec<u8>,
    /// What the information loop had stored at the end.
    pub stored: Vec<u8>,
}

thread_local! {
    static BUFFER: Cell<(usize, u8)> = const { Cell::new((0, 0)) };
    static BUFFER_AFTER: RefCell<Vec<u8>> = const { RefCell::new(Vec::new()) };
    static PLAYING: Cell<bool> = const { Cell::new(false) };
}

/// Any type of as many bytes as was lent: its value is the payload, whatever its length.
struct Bytes(Vec<u8>);

/// The buffer of `Bytes`, kept when it is dropped.
struct Buffer(Vec<u8>);

impl Drop for Buffer {
    fn drop(&mut self) {
        BUFFER_AFTER.with(|cell| cell.replace(std::mem::take(&mut self.0)));
    }
}

impl AsRef<[u8]> for Buffer {
    fn as_ref(&self) -> &[u8] {
        &self.0
    }
}

impl AsMut<[u8]> for Buffer {
    fn as_mut(&mut self) -> &mut [u8] {
        &mut self.0
    }
}

impl EtherCrabWireSized for Bytes {
    const PACKED_LEN: usize = 0;
    type Buffer = Buffer;

    fn buffer() -> Buffer {
        let (len, fill) = BUFFER.with(Cell::get);
        Buffer(vec![fill; len])
    }
}

impl EtherCrabWireRead for Bytes {
    fn unpack_from_slice(buf: &[u8]) -> Result<Self, WireError> {
        Ok(Self(buf.to_vec()))
    }
}

/// A value to write, of any length.
struct Value<'a>(&'a [u8]);

impl EtherCrabWireWrite for Value<'_> {
    fn packed_len(&self) -> usize {
        self.0.len()
    }

    fn pack_exact(&self, buf: &mut [u8]) {
        buf.copy_from_slice(self.0)
    }
}

struct Idle;

impl Wake for Idle {
    fn wake(self: Arc<Self>) {}
}

/// The result of a call that never waits, as no stand-in does.
pub fn at_once<F: Future>(future: F) -> F::Output {
    let mut future = Box::pin(future);
    match Pin::new(&mut future).poll(&mut Context::from_waker(&Waker::from(Arc::new(Idle)))) {
        Poll::Ready(output) => output,
        Poll::Pending => panic!("a stand-in waited"),
    }
}

fn read_number<T>(coe: &Coe<'_, &SubDevice>, index: u16, access: SubIndex) -> Result<Outcome, Error>
where
    T: EtherCrabWireRead + EtherCrabWireSized + Into<i64>,
{
    at_once(coe.sdo_read::<T>(index, access)).map(|value| Outcome::Numbers(vec![value.into()]))
}

fn called(coe: &Coe<'_, &SubDevice>, call: Call<'_>) -> Result<Outcome, Error> {
    match call {
        Call::Read { index, access } => at_once(coe.sdo_read::<Bytes>(index, access)).map(|bytes| Outcome::Payload(bytes.0)),
        Call::ReadNumber { index, access, number } => match number {
            Number::U8 => read_number::<u8>(coe, index, access),
            Number::U16 => read_number::<u16>(coe, index, access),
            Number::U32 => read_number::<u32>(coe, index, access),
            Number::I8 => read_number::<i8>(coe, index, access),
            Number::I16 => read_number::<i16>(coe, index, access),
            Number::I32 => read_number::<i32>(coe, index, access),
        },
        Call::Write { index, access, data } => {
            at_once(coe.sdo_write(index, access, Value(data))).map(|()| Outcome::Payload(Vec::new()))
        }
        Call::List { kind } => {
            let query = ObjectDescriptionListQuery::unpack_from_slice(&[kind])?;
            let list = at_once(coe.sdo_info_object_description_list(query))?.expect("the script has mailboxes");
            Ok(Outcome::Numbers(list.iter().map(|&index| index.into()).collect()))
        }
        Call::Quantities => {
            let counts = at_once(coe.sdo_info_object_quantities())?.expect("the script has mailboxes");
            Ok(Outcome::Numbers(numbers_of(counts).to_vec()))
        }
    }
}

/// The vector that the published code makes of a list's payload.
pub type List = heapless::Vec<u16, 0x1_0000>;

pub fn numbers_of(counts: crate::ObjectDescriptionListQueryCounts) -> [i64; 5] {
    [
        counts.all.into(),
        counts.rx_pdo_mappable.into(),
        counts.tx_pdo_mappable.into(),
        counts.stored_for_device_replacement.into(),
        counts.startup_parameters.into(),
    ]
}

/// From now on a panic of the published code is an outcome and is not printed. To be called once.
pub fn keep_panics_quiet() {
    let printed = std::panic::take_hook();
    std::panic::set_hook(Box::new(move |info| {
        if !PLAYING.with(Cell::get) {
            printed(info);
        }
    }));
}

fn caught(play: impl FnOnce() -> Result<Outcome, Error>) -> Outcome {
    PLAYING.with(|cell| cell.set(true));
    let result = catch_unwind(AssertUnwindSafe(play));
    PLAYING.with(|cell| cell.set(false));
    match result {
        Ok(Ok(outcome)) => outcome,
        Ok(Err(error)) => Outcome::Refused(error),
        Err(panic) => Outcome::Panicked(match (panic.downcast_ref::<&str>(), panic.downcast_ref::<String>()) {
            (Some(text), _) => text.to_string(),
            (_, Some(text)) => text.clone(),
            _ => "a panic without a text".into(),
        }),
    }
}

pub fn play(call: Call<'_>, lent: Lent, replies: &[Vec<u8>]) -> Played {
    BUFFER.with(|cell| cell.set((lent.buffer, lent.fill)));
    BUFFER_AFTER.with(|cell| cell.take());
    heapless::begin(lent.capacity);
    let script = Script::new(replies);
    let state = SubDevice::new(MailboxConfig::BOTH, lent.counter);
    let device = SubDeviceRef::new(&script, &state);
    let coe = Coe::new(&device);
    let outcome = caught(|| called(&coe, call));
    Played {
        outcome,
        sent: script.sent.take(),
        judged: script.judged.get(),
        counter: state.counter(),
        buffer: BUFFER_AFTER.with(|cell| cell.take()),
        stored: heapless::stored(),
    }
}
