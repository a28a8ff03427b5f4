//! Reads the name, 0x1008:00, of a scripted drive as text. The drive sends it in segments of seven bytes.
use coe_desk::{Order, SharedDesk};
use std::error::Error;
use std::time::Duration;

#[path = "../tests/common/drive.rs"]
mod drive;

fn main() -> Result<(), Box<dyn Error>> {
    let mut mailbox = drive::Drive::new(16).with(0x1008, 0, b"AX5112 servo drive").shared();
    let desk = SharedDesk::new(Duration::from_millis(100));
    let mut data = [0; 64];
    let payload = desk.transfer(Order::upload(0x1008, 0), &mut data, &mut mailbox)?;
    let name = std::str::from_utf8(payload.bytes())?;
    println!("drive name {name}");
    assert_eq!(name, "AX5112 servo drive");
    Ok(())
}
