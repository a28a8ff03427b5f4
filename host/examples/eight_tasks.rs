//! Eight threads, each reading objects of its own and writing one, thousands of transfers at one mailbox: every result is
//! checked.
use coe_desk::{Order, SharedDesk};
use std::error::Error;
use std::time::Duration;

#[path = "../tests/common/drive.rs"]
mod drive;

const ROUNDS: u32 = 200;

/// The bytes of a task's long object: it goes in segments, through a mailbox of 64 bytes.
fn long_object(task: u8) -> Vec<u8> {
    (0..150).map(|place| task.wrapping_mul(31).wrapping_add(place)).collect()
}

fn task(task: u8, desk: &SharedDesk, mailbox: &mut drive::Handle) -> Result<u32, Box<dyn Error + Send + Sync>> {
    let (number, name, counter) = (0x2000 + u16::from(task), 0x3000 + u16::from(task), 0x4000 + u16::from(task));
    let mut data = [0; 256];
    for round in 0..ROUNDS {
        assert_eq!(desk.transfer(Order::upload(number, 1), &mut data, mailbox)?.u32()?, u32::from(task));
        assert_eq!(desk.transfer(Order::upload(name, 0), &mut data, mailbox)?.bytes(), long_object(task));
        desk.transfer(Order::download(counter, 0, &round.to_le_bytes()), &mut data, mailbox)?;
        assert_eq!(desk.transfer(Order::upload(counter, 0), &mut data, mailbox)?.u32()?, round);
    }
    Ok(4 * ROUNDS)
}

fn main() {
    let drive = (0..8).fold(drive::Drive::new(64), |drive, task| {
        drive
            .with(0x2000 + u16::from(task), 1, &u32::from(task).to_le_bytes())
            .with(0x3000 + u16::from(task), 0, &long_object(task))
            .with(0x4000 + u16::from(task), 0, &[0; 4])
    });
    let mailbox = drive.shared();
    let desk = SharedDesk::new(Duration::from_millis(100));
    let transfers: u32 = std::thread::scope(|scope| {
        let tasks: Vec<_> = (0..8)
            .map(|number| {
                let (desk, mut mailbox) = (&desk, mailbox.clone());
                scope.spawn(move || task(number, desk, &mut mailbox))
            })
            .collect();
        tasks.into_iter().map(|task| task.join().expect("a task panicked").expect("a transfer failed")).sum()
    });
    println!("eight tasks, {transfers} transfers, every result right");
}
