//! The Rust's side: the published code, and its outcome in document 01's terms.
use super::shifted::shifted;
use crate::emergency::is_emergency;
use crate::ran::{End, Ran, Read};
use crate::transfer::{size_of, Kind, Transfer, FILL};
use ethercrab::error::{Error, MailboxError, PduError};
use ethercrab::play::{numbers_of, play, Call, Lent, Number, Outcome, Played};
use ethercrab::wire::EtherCrabWireRead;
use ethercrab::{ObjectDescriptionListQueryCounts, SubIndex};
use std::borrow::Cow;

/// The published capacity of the information loop's buffer.
pub const PUBLISHED_CAPACITY: usize = 131_070;

/// What the Rust is asked: the transfer, and how far its own sizes give way to the lent N, and its reading of byte 8 and its place of
/// segment data to ours.
#[derive(Debug, Clone)]
pub struct Asked<'a> {
    pub transfer: Cow<'a, Transfer>,
    /// The information loop's buffer has N bytes.
    pub capacity_is_lent: bool,
    /// A number is read into a buffer of N bytes, and not of its own size.
    pub number_is_lent: bool,
    /// Segment replies are given with their data where the Rust takes them.
    pub segments_are_shifted: bool,
    /// Emergencies are given with a specifier in byte 8 that the Rust lists.
    pub emergencies_have_a_specifier: bool,
}

impl<'a> Asked<'a> {
    pub fn plainly(transfer: &'a Transfer) -> Asked<'a> {
        Asked {
            transfer: Cow::Borrowed(transfer),
            capacity_is_lent: false,
            number_is_lent: false,
            segments_are_shifted: false,
            emergencies_have_a_specifier: false,
        }
    }

    /// A reply, counted from 0, as the Rust is given it.
    pub fn given(&self, number: usize) -> Cow<'_, [u8]> {
        let reply = &self.transfer.replies[number];
        if self.emergencies_have_a_specifier && is_emergency(reply) {
            return Cow::Owned(with_a_specifier(reply));
        }
        match self.segments_are_shifted && number > 0 {
            true => Cow::Owned(shifted(reply)),
            false => Cow::Borrowed(reply),
        }
    }
}

/// An upload's specifier: which of those that the Rust lists plays no part, since its assertion comes next.
fn with_a_specifier(emergency: &[u8]) -> Vec<u8> {
    let mut given = emergency.to_vec();
    if let Some(byte_8) = given.get_mut(8) {
        *byte_8 = *byte_8 & 0x1f | 2 << 5;
    }
    given
}

#[derive(Debug, Clone)]
pub struct Answered {
    pub ran: Ran,
    pub outcome: Outcome,
    /// How many bytes the information loop had collected.
    pub collected: usize,
}

pub fn run(asked: &Asked<'_>) -> Answered {
    run_to(asked, asked.transfer.replies.len())
}

/// Runs it with the first replies alone.
pub fn run_to(asked: &Asked<'_>, replies: usize) -> Answered {
    let transfer = &*asked.transfer;
    let given: Vec<Vec<u8>> = (0..replies).map(|number| asked.given(number).into_owned()).collect();
    let played = |call: Call<'_>| {
        let capacity = if asked.capacity_is_lent { transfer.room } else { PUBLISHED_CAPACITY };
        let lent = Lent { counter: transfer.counter, buffer: transfer.room, fill: FILL, capacity };
        play(call, lent, &given)
    };
    let access = transfer.sub.map_or(SubIndex::Complete, SubIndex::Index);
    let index = transfer.index;
    match transfer.kind {
        Kind::Read => answered(transfer, played(Call::Read { index, access })),
        Kind::Write => answered(transfer, played(Call::Write { index, access, data: &transfer.data })),
        Kind::List => answered(transfer, played(Call::List { kind: transfer.index as u8 })),
        Kind::Quantities => answered(transfer, played(Call::Quantities)),
        Kind::ReadNumber(number) if asked.number_is_lent => {
            as_number(number, answered(transfer, played(Call::Read { index, access })))
        }
        Kind::ReadNumber(number) => {
            // The bytes that a number's own buffer had are not to be seen: they are those of a read of as many bytes.
            let plain = Transfer { kind: Kind::Read, room: size_of(number), ..transfer.clone() };
            let bytes = run_to(&Asked { transfer: Cow::Owned(plain), ..*asked }, replies);
            let length = if let End::Done { length } = bytes.ran.end { length } else { 0 };
            let mut number = answered(transfer, played(Call::ReadNumber { index, access, number }));
            number.ran.stored = bytes.ran.stored;
            match &mut number.ran.end {
                End::Done { length: own } | End::Undecoded { length: own } => *own = length,
                _ => {}
            }
            number
        }
    }
}

fn answered(transfer: &Transfer, played: Played) -> Answered {
    let mut stored = vec![FILL; transfer.room];
    let collected = played.stored.len();
    let (mut end, mut read) = (ended(&played.outcome, collected), Read::Nothing);
    match &played.outcome {
        Outcome::Payload(payload) => {
            put(&mut stored, &played.buffer);
            put(&mut stored, payload);
            end = End::Done { length: payload.len() };
        }
        Outcome::Numbers(numbers) => read = Read::Numbers(numbers.clone()),
        Outcome::Refused(_) | Outcome::Panicked(_) => put(&mut stored, &played.buffer),
    }
    put(&mut stored, &played.stored);
    let ran = Ran { end, read, sent: played.sent, judged: played.judged, counter: played.counter, stored };
    Answered { ran, outcome: played.outcome, collected }
}

fn put(stored: &mut [u8], bytes: &[u8]) {
    let fits = bytes.len().min(stored.len());
    stored[..fits].copy_from_slice(&bytes[..fits]);
}

/// The number that document 01 gives to an outcome of the Rust.
fn ended(outcome: &Outcome, collected: usize) -> End {
    let named = |number, address, sub_index| End::Over { number, code: 0, index: address, sub: sub_index };
    match outcome {
        Outcome::Payload(_) | Outcome::Numbers(_) => End::Done { length: collected },
        Outcome::Panicked(text) => End::Panicked(text.clone()),
        Outcome::Refused(error) => match *error {
            Error::RepliesUsedUp => End::Left,
            Error::Wire(_) => End::over(0x20),
            Error::Pdu(PduError::Decode) => End::Undecoded { length: collected },
            Error::Mailbox(MailboxError::Aborted { code, address, sub_index }) => {
                End::Over { number: 0x22, code: code.into(), index: address, sub: sub_index }
            }
            Error::Mailbox(MailboxError::SdoResponseInvalid { address, sub_index }) => named(0x23, address, sub_index),
            Error::Mailbox(MailboxError::TooLong { address, sub_index }) => named(0x24, address, sub_index),
            Error::Internal => End::over(0x25),
            other => End::Panicked(format!("an error that src/mailbox does not give here: {other}")),
        },
    }
}

/// The number in the bytes that were read.
fn as_number(number: Number, bytes: Answered) -> Answered {
    let mut ran = bytes.ran;
    if let End::Done { length } = ran.end {
        match read_number(number, &ran.stored[..length.min(ran.stored.len())]) {
            Some(value) => ran.read = Read::Numbers(vec![value]),
            None => ran.end = End::Undecoded { length },
        }
    }
    Answered { ran, ..bytes }
}

pub fn read_number(number: Number, payload: &[u8]) -> Option<i64> {
    match number {
        Number::U8 => u8::unpack_from_slice(payload).map(i64::from),
        Number::U16 => u16::unpack_from_slice(payload).map(i64::from),
        Number::U32 => u32::unpack_from_slice(payload).map(i64::from),
        Number::I8 => i8::unpack_from_slice(payload).map(i64::from),
        Number::I16 => i16::unpack_from_slice(payload).map(i64::from),
        Number::I32 => i32::unpack_from_slice(payload).map(i64::from),
    }
    .ok()
}

pub fn read_list(payload: &[u8]) -> Option<Vec<i64>> {
    let list = ethercrab::play::List::unpack_from_slice(payload).ok()?;
    Some(list.iter().copied().map(i64::from).collect())
}

pub fn read_quantities(payload: &[u8]) -> Option<Vec<i64>> {
    ObjectDescriptionListQueryCounts::unpack_from_slice(payload).ok().map(|counts| numbers_of(counts).to_vec())
}
