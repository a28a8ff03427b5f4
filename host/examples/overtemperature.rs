//! Asks a scripted drive that has grown too hot for its status word, 0x6041:00. In place of the reply it sends an emergency, which the
//! caller is told. The next transfer goes on.
use coe_desk::{emergency_class, Order, Refusal, SharedDesk, TransferError};
use std::error::Error;
use std::time::Duration;

#[path = "../tests/common/drive.rs"]
mod drive;

fn main() -> Result<(), Box<dyn Error>> {
    let mut mailbox = drive::Drive::new(64).with(0x6041, 0, &[0x37, 0x02]).shared();
    mailbox.drive().raise(0x4210, 0x08, [1, 2, 3, 4, 5]);
    let desk = SharedDesk::new(Duration::from_millis(100));
    let (order, mut data) = (Order::upload(0x6041, 0), [0; 2]);

    let refused = desk.transfer(order, &mut data, &mut mailbox).expect_err("the drive's message comes first");
    println!("{refused}");
    match refused {
        TransferError::Refused(Refusal::Emergency { code, register, data }) => {
            assert_eq!((code, register, data), (0x4210, 0x08, [1, 2, 3, 4, 5]));
            assert_eq!(emergency_class(code), Some("device temperature"));
        }
        other => return Err(other.into()),
    }

    let status = desk.transfer(order, &mut data, &mut mailbox)?.u16()?;
    println!("status word {status:#06x}");
    assert_eq!(status, 0x0237);
    Ok(())
}
