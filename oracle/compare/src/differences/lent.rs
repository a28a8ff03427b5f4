//! What our host lends, and the Rust has in its types or does not bound.
use super::{Difference, Instead, Parting, Rule};
use crate::ran::{End, Ran};
use crate::sides::theirs::{self, Asked, PUBLISHED_CAPACITY};
use crate::transfer::{size_of, Kind};
use coe_desk::{LONGEST_DATA, LONGEST_REPLY};

pub const ASKED: &[Difference] = &[
    Difference {
        id: "D17",
        smallest: "u16 1018 01 - 4\n0e00000000130030411810010400000011223344",
        rule: Rule::Transfer(size_of_a_number),
    },
    Difference {
        id: "D18",
        smallest: "list 0001 00 - 0\n0900000000130080020000000100aa",
        rule: Rule::Transfer(capacity_of_a_list),
    },
];

pub const ENDS: &[Difference] = &[
    Difference { id: "D20", smallest: "read 1018 01 - 131071\n-", rule: Rule::Transfer(data_buffer_too_long) },
    Difference { id: "D16", smallest: "list 0001 00 - 0 1 1\n080000000013008007000000", rule: Rule::Transfer(budget_spent) },
    Difference { id: "D19", smallest: LONG_REPLY, rule: Rule::Transfer(reply_too_long) },
];

/// 1,487 bytes, of which document 01's rules look at the first sixteen.
const LONG_REPLY: &str = include_str!("reply-of-1487-bytes.txt");

fn size_of_a_number<'a>(parting: &Parting<'a>) -> Option<Instead<'a>> {
    match parting.transfer().kind {
        Kind::ReadNumber(number) if !parting.asked.number_is_lent && parting.transfer().room != size_of(number) => {
            Some(Instead::Asked(Asked { number_is_lent: true, ..parting.asked.clone() }))
        }
        _ => None,
    }
}

fn capacity_of_a_list<'a>(parting: &Parting<'a>) -> Option<Instead<'a>> {
    let room = parting.transfer().room;
    let so = parting.transfer().is_information()
        && !parting.asked.capacity_is_lent
        && room < PUBLISHED_CAPACITY
        && parting.theirs.collected > room;
    so.then(|| Instead::Asked(Asked { capacity_is_lent: true, ..parting.asked.clone() }))
}

/// The Rust after these replies, if it goes on then.
fn going_on_after(parting: &Parting<'_>, replies: usize) -> Option<Ran> {
    let ran = theirs::run_to(parting.asked, replies).ran;
    (ran.end == End::Left && ran.judged == replies).then_some(ran)
}

fn first_long_reply(parting: &Parting<'_>) -> Option<usize> {
    parting.transfer().replies.iter().position(|reply| reply.len() > LONGEST_REPLY)
}

/// The Rust goes on after the last reply of the budget. We have judged it too, but neither stored its chunk nor sent more.
fn budget_spent<'a>(parting: &Parting<'a>) -> Option<Instead<'a>> {
    let budget = usize::from(parting.transfer().budget);
    if budget == 0 || parting.transfer().replies.len() < budget || first_long_reply(parting).map_or(false, |at| at < budget) {
        return None;
    }
    going_on_after(parting, budget)?;
    let before = going_on_after(parting, budget - 1)?;
    Some(Instead::Ran(Ran { end: End::over(0x27), judged: budget, ..before }))
}

/// The Rust judges it. Our call is refused, and nothing has changed.
fn reply_too_long<'a>(parting: &Parting<'a>) -> Option<Instead<'a>> {
    let before = going_on_after(parting, first_long_reply(parting)?)?;
    Some(Instead::Ran(Ran { end: End::Refused(0x16), ..before }))
}

fn data_buffer_too_long<'a>(parting: &Parting<'a>) -> Option<Instead<'a>> {
    if parting.transfer().room <= LONGEST_DATA || parting.transfer().replies.is_empty() {
        return None;
    }
    Some(Instead::Ran(Ran { end: End::Refused(0x16), ..going_on_after(parting, 0)? }))
}
