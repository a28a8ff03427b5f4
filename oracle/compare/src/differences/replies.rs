//! Replies at which the Rust panics or refuses, and documents 01 and 02 have a number, and segments, whose data it takes from another
//! place.
use super::{Difference, Instead, Parting, Rule};
use crate::emergency::{is_emergency, told, LEAST};
use crate::fields::{length_field, specifier};
use crate::ran::{End, Ran, Read};
use crate::sides::shifted::has_data;
use crate::sides::theirs::Asked;
use ethercrab::error::Error;
use ethercrab::play::Outcome;
use ethercrab::wire::WireError;
use std::borrow::Cow;

pub const ASKED: &[Difference] = &[
    Difference {
        id: "D21",
        smallest: "read 1008 00 - 4\n0a000000001300304108100002000000\n0a000000001300306b61626364656667",
        rule: Rule::Always(place_of_segment_data),
    },
    Difference {
        id: "D21",
        smallest: "read 1008 00 - 4\n0a000000001300304108100002000000\n0a000000001300306b6162",
        rule: Rule::Always(place_of_segment_data),
    },
    Difference { id: "D7", smallest: "read 1018 01 - 4\n0a0000000013003002181001", rule: Rule::Transfer(specifier_0) },
    Difference {
        id: "D13",
        smallest: "read 1018 01 - 4\n0a000000001300101042080102030405",
        rule: Rule::Always(byte_8_of_an_emergency),
    },
    Difference {
        id: "D13",
        smallest: "read 1018 01 - 4\n0a00000000130010e0ff080102030405",
        rule: Rule::Always(byte_8_of_an_emergency),
    },
];

pub const ENDS: &[Difference] = &[
    Difference { id: "D8", smallest: "read 1018 01 - 4\n0a000000001300103081110102030405", rule: Rule::Transfer(emergency) },
    Difference { id: "D9", smallest: "read 1018 01 - 4\n0a0000000013001030811101", rule: Rule::Transfer(short_emergency) },
    Difference {
        id: "D10",
        smallest: "read 1018 01 - 9\n0a000000001300304118100109000000\n020000000013003061",
        rule: Rule::Transfer(segment_length),
    },
    Difference { id: "D11", smallest: "list 0001 00 - 0\n070000000013008002000000", rule: Rule::Transfer(information_length) },
    Difference { id: "D12", smallest: "list 0001 00 - 1\n090000000013008002000000", rule: Rule::Transfer(chunk_not_there) },
    Difference { id: "D14", smallest: "read 1018 01 - 4\n0a0000000013003043181002", rule: Rule::Transfer(named_object) },
    Difference { id: "D15", smallest: "list 0001 00 - 1\n0900000000130080020000000100aa", rule: Rule::Transfer(undecoded) },
];

/// Once the Rust has come to a segment with data, every segment is given to it with the data where it takes them.
fn place_of_segment_data<'a>(parting: &Parting<'a>) -> Option<Asked<'a>> {
    let judged = parting.transfer().replies.iter().take(parting.theirs.ran.judged);
    let so = parting.transfer().is_read() && !parting.asked.segments_are_shifted && judged.skip(1).any(|reply| has_data(reply));
    so.then(|| Asked { segments_are_shifted: true, ..parting.asked.clone() })
}

/// The reply of an SDO call in which the Rust found an unlisted number.
fn unlisted<'a>(parting: &Parting<'a>) -> Option<&'a [u8]> {
    let refused = parting.theirs.outcome == Outcome::Refused(Error::Wire(WireError::InvalidValue));
    parting.last_reply().filter(|reply| refused && reply.len() > 8 && !parting.transfer().is_information())
}

/// Any other specifier but 4 is judged alike: the Rust is asked again with 2.
fn specifier_0<'a>(parting: &Parting<'a>) -> Option<Instead<'a>> {
    unlisted(parting).filter(|reply| specifier(reply) == 0 && !is_emergency(reply))?;
    let mut transfer = parting.transfer().clone();
    transfer.replies[parting.theirs.ran.judged - 1][8] |= 2 << 5;
    Some(Instead::Asked(Asked { transfer: Cow::Owned(transfer), ..*parting.asked }))
}

/// The Rust looks for a specifier in the code's low byte. It is given one that it lists, so that it comes to its assertion.
fn byte_8_of_an_emergency<'a>(parting: &Parting<'a>) -> Option<Asked<'a>> {
    let refused = unlisted(parting).filter(|reply| is_emergency(reply) && reply.len() >= LEAST);
    let so = refused.is_some() && !parting.asked.emergencies_have_a_specifier;
    so.then(|| Asked { emergencies_have_a_specifier: true, ..parting.asked.clone() })
}

fn panicked(parting: &Parting<'_>, text: &str) -> bool {
    matches!(&parting.theirs.ran.end, End::Panicked(said) if said.contains(text))
}

/// The reply at which the Rust's assertion against emergencies failed.
fn asserted<'a>(parting: &Parting<'a>) -> Option<&'a [u8]> {
    let reply = parting.last_reply()?;
    (panicked(parting, "assertion") && !parting.transfer().is_information() && is_emergency(reply)).then_some(reply)
}

fn emergency<'a>(parting: &Parting<'a>) -> Option<Instead<'a>> {
    let reply = asserted(parting).filter(|reply| reply.len() >= LEAST)?;
    parting.ending(told(reply))
}

fn short_emergency<'a>(parting: &Parting<'a>) -> Option<Instead<'a>> {
    asserted(parting).filter(|reply| (12..LEAST).contains(&reply.len()))?;
    parting.ending(End::over(0x20))
}

fn segment_length<'a>(parting: &Parting<'a>) -> Option<Instead<'a>> {
    let of_segment = !parting.transfer().is_information() && parting.theirs.ran.sent.len() > 1;
    let so = of_segment && panicked(parting, "subtract with overflow") && length_field(parting.last_reply()?) < 3;
    so.then(|| parting.ending(End::over(0x26)))?
}

fn information_length<'a>(parting: &Parting<'a>) -> Option<Instead<'a>> {
    let so = parting.transfer().is_information() && panicked(parting, "subtract with overflow");
    (so && length_field(parting.last_reply()?) < 8).then(|| parting.ending(End::over(0x26)))?
}

fn chunk_not_there<'a>(parting: &Parting<'a>) -> Option<Instead<'a>> {
    let reply = parting.last_reply()?;
    let earlier = &parting.transfer().replies[..parting.theirs.ran.judged - 1];
    let begins_at = if earlier.iter().any(|reply| reply[8] & 0x7f == 2) { 12 } else { 14 };
    let so = parting.transfer().is_information() && panicked(parting, "range end index");
    (so && begins_at + length_field(reply) - 8 > reply.len()).then(|| parting.ending(End::over(0x25)))?
}

/// 23 and 24 name the reply's object in the Rust.
fn named_object<'a>(parting: &Parting<'a>) -> Option<Instead<'a>> {
    let reply = parting.last_given()?;
    match parting.theirs.ran.end {
        End::Over { number: number @ (0x23 | 0x24), code: 0, index, sub }
            if index.to_le_bytes() == reply[9..11] && sub == reply[11] =>
        {
            parting.ending(End::over(number))
        }
        _ => None,
    }
}

/// The transfer is done, and the read of it refused: two answers here, one in the Rust.
fn undecoded<'a>(parting: &Parting<'a>) -> Option<Instead<'a>> {
    match parting.theirs.ran.end {
        End::Undecoded { length } => {
            let ran = parting.theirs.ran.clone();
            Some(Instead::Ran(Ran { end: End::Done { length }, read: Read::Refused, ..ran }))
        }
        _ => None,
    }
}
