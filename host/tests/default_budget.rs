//! The default budget: where it ends a transfer, what it brings, who passes more, and that every place has the same number.
use coe_desk::{Answer, Desk, ListKind, Mailbox, Order, Refusal, Seat, SharedDesk, TransferError, DEFAULT_BUDGET, LONGEST_DATA};
use common::drive::{Drive, Handle};
use std::convert::Infallible;
use std::time::Duration;

mod common;

const ORDER: Order<'static> = Order::Upload { index: 0x1018, sub_index: coe_desk::SubIndex::Index(1) };
const SEGMENTS_FOLLOW: &[u8] = b"\x0a\0\0\0\0\x13\0\x30\x41\x18\x10\x01\x08\0\0\0";
const EMPTY: &[u8] = b"\x03\0\0\0\0\x13\0\x30\0";
const LAST: &[u8] = b"\x03\0\0\0\0\x13\0\x30\x01";
const SPENT: TransferError<Infallible> = TransferError::Refused(Refusal::BudgetSpent);

/// What the 1,024th reply, the 1,023rd segment, is answered where all before it are empty and not the last.
fn answer_to_the_1024th(reply: &[u8]) -> Result<Answer, Refusal> {
    let (mut desk, seat) = (Desk::new(), Seat::ALL[0]);
    desk.enter(seat, ORDER).unwrap();
    let mut exchange = |reply| desk.send(seat, &mut [0; 16]).and_then(|()| desk.receive(seat, reply, &mut [0; 8]));
    assert_eq!(exchange(SEGMENTS_FOLLOW), Ok(Answer::RequestDue));
    for _ in 0..1022 {
        assert_eq!(exchange(EMPTY), Ok(Answer::RequestDue));
    }
    exchange(reply)
}

#[test]
fn a_faulty_drive_is_given_up_at_the_1024th_reply() {
    assert_eq!(DEFAULT_BUDGET, 1024);
    assert_eq!(answer_to_the_1024th(EMPTY), Err(Refusal::BudgetSpent));
    assert_eq!(answer_to_the_1024th(LAST), Ok(Answer::Done { length: 0 }));
}

/// Announces segments and sends empty ones, without end and whether it is asked or not.
struct Faulty {
    requests: u32,
    reads: u32,
}

impl Mailbox for Faulty {
    type Error = Infallible;

    fn write(&mut self, _frame: &[u8]) -> Result<(), Infallible> {
        self.requests += 1;
        Ok(())
    }

    fn read(&mut self, reply: &mut [u8], _timeout: Duration) -> Result<Option<usize>, Infallible> {
        self.reads += 1;
        let sent = if self.requests == 1 { SEGMENTS_FOLLOW } else { EMPTY };
        reply[..sent.len()].copy_from_slice(sent);
        Ok(Some(sent.len()))
    }
}

#[test]
fn a_shared_desk_reads_no_more_than_the_budget() {
    for (budget, reads) in [(None, 1024), (Some(2), 2), (Some(65_535), 65_535)] {
        let (desk, mut faulty) = (SharedDesk::new(Duration::ZERO), Faulty { requests: 0, reads: 0 });
        let mut transfer = || match budget {
            None => desk.transfer(ORDER, &mut [0; 8], &mut faulty).map(|_| ()),
            Some(budget) => desk.transfer_within(ORDER, budget, &mut [0; 8], &mut faulty).map(|_| ()),
        };
        assert_eq!(transfer(), Err(SPENT));
        // This drive never falls silent, so that the next transfer reads off in vain: as many as its budget, the default at least.
        assert_eq!(transfer(), Err(TransferError::NeverQuiet));
        assert_eq!(faulty.reads, reads + reads.max(1024));
    }
}

/// A desk, and a drive of so many objects.
fn trial(mailbox_size: usize, count: usize) -> (SharedDesk, Handle) {
    let drive = (0..).take(count).fold(Drive::new(mailbox_size), |drive, index| drive.with(index, 0, &[1]));
    (SharedDesk::new(Duration::ZERO), drive.shared())
}

/// How many objects are listed, each at its place.
fn listed((desk, handle): &mut (SharedDesk, Handle), budget: Option<u16>) -> Result<usize, TransferError<Infallible>> {
    let (order, mut data) = (Order::ObjectList(ListKind::All), vec![0; LONGEST_DATA]);
    let payload = match budget {
        None => desk.transfer(order, &mut data, handle)?,
        Some(budget) => desk.transfer_within(order, budget, &mut data, handle)?,
    };
    assert!(payload.object_list().unwrap().map(usize::from).eq(0..payload.length() / 2));
    Ok(payload.length() / 2)
}

/// How many bytes of an object of that length come.
fn uploaded(mailbox_size: usize, length: usize) -> Result<usize, TransferError<Infallible>> {
    let mut handle = Drive::new(mailbox_size).with(0x1018, 1, &vec![7; length]).shared();
    SharedDesk::new(Duration::ZERO).transfer(ORDER, &mut vec![0; length], &mut handle).map(|payload| payload.length())
}

/// The rows of the page's table: mailbox, indices, bytes.
fn rows() -> Vec<Vec<usize>> {
    let page = include_str!("../src/lib.rs").lines().filter_map(|line| line.strip_prefix("/// | "));
    page.filter_map(|row| row.trim_end_matches(" |").split(" | ").map(|cell| cell.replace(',', "").parse().ok()).collect())
        .collect()
}

#[test]
fn the_default_brings_what_its_page_says_and_no_more() {
    assert_eq!(rows().len(), 4);
    for row in rows() {
        let (mailbox_size, indices, bytes) = (row[0], row[1], row[2]);
        assert_eq!(listed(&mut trial(mailbox_size, indices), None), Ok(indices));
        let mut one_more = trial(mailbox_size, indices + 1);
        assert_eq!(listed(&mut one_more, None), Err(SPENT));
        assert_eq!(listed(&mut one_more, Some(65_535)), Ok(indices + 1));
        assert_eq!(uploaded(mailbox_size, bytes), Ok(bytes));
        assert_eq!(uploaded(mailbox_size, bytes + 1), Err(SPENT));
    }
}

#[test]
fn from_142_bytes_on_the_default_is_enough() {
    assert_eq!(listed(&mut trial(142, 65_535), None), Ok(65_535));
    assert_eq!(listed(&mut trial(140, 65_535), None), Err(SPENT));
    assert_eq!(uploaded(142, LONGEST_DATA), Ok(LONGEST_DATA));
}

#[test]
fn the_longest_list_through_the_smallest_mailbox_takes_65535_replies() {
    let mut longest = trial(16, 65_535);
    assert_eq!(listed(&mut longest, Some(65_534)), Err(SPENT));
    assert_eq!(listed(&mut longest, Some(65_535)), Ok(65_535));
}

#[test]
fn every_place_has_the_same_number() {
    for (front, text) in [
        ("#define COE_DESK_DEFAULT_BUDGET ", include_str!("../../include/coe_desk.h")),
        ("default_budget = ", include_str!("../../crates/transfer/specs/Entry.antt")),
        ("pub const DEFAULT_BUDGET: u16 = ", include_str!("../../crates/transfer/src/entry.rt")),
        ("DEFAULT_BUDGET = ", include_str!("../../tools/cases/model.py")),
    ] {
        let numbers: Vec<&str> = text.lines().filter_map(|line| line.strip_prefix(front)).collect();
        assert_eq!(numbers.len(), 1, "`{front}` begins one line");
        assert_eq!(numbers[0].trim_end_matches(';').parse(), Ok(DEFAULT_BUDGET), "`{front}`");
    }
}
