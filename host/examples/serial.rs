//! Reads the serial number, 0x1018:04, of a scripted drive.
use coe_desk::{Order, SharedDesk};
use std::error::Error;
use std::time::Duration;

#[path = "../tests/common/drive.rs"]
mod drive;

fn main() -> Result<(), Box<dyn Error>> {
    let mut mailbox = drive::Drive::new(64).with(0x1018, 4, &123_456u32.to_le_bytes()).shared();
    let desk = SharedDesk::new(Duration::from_millis(100));
    let mut data = [0; 4];
    let serial = desk.transfer(Order::upload(0x1018, 4), &mut data, &mut mailbox)?.u32()?;
    println!("serial number {serial}");
    assert_eq!(serial, 123_456);
    Ok(())
}
