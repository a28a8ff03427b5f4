//! Fetches the list of all objects of a scripted drive with a mailbox of 32 bytes. Its 12,000 indices come nine in a reply: that takes
//! 1,334 replies, more than the default budget has, so that the caller passes a budget.
use coe_desk::{ListKind, Order, Refusal, SharedDesk, TransferError, DEFAULT_BUDGET, LONGEST_DATA};
use std::error::Error;
use std::time::Duration;

#[path = "../tests/common/drive.rs"]
mod drive;

fn main() -> Result<(), Box<dyn Error>> {
    let drive = (0x1000..).take(12_000).fold(drive::Drive::new(32), |drive, index| drive.with(index, 0, &[0]));
    let (desk, mut mailbox) = (SharedDesk::new(Duration::from_millis(100)), drive.shared());
    let (order, mut data) = (Order::ObjectList(ListKind::All), vec![0; LONGEST_DATA]);

    let refused = desk.transfer(order, &mut data, &mut mailbox).expect_err("the default is too small for this list");
    println!("within {DEFAULT_BUDGET} replies: {refused}");
    assert_eq!(refused, TransferError::Refused(Refusal::BudgetSpent));

    let list = desk.transfer_within(order, 65_535, &mut data, &mut mailbox)?;
    println!("within 65535 replies: {} objects", list.object_list()?.count());
    assert!(list.object_list()?.eq((0x1000..).take(12_000)));
    Ok(())
}
