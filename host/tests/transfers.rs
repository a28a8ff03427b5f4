//! Transfers of every shape between a desk and a drive.
use coe_desk::{AbortCode, ListKind, Order, Refusal, SharedDesk, SubIndex, TransferError};
use common::drive::{Drive, Handle};
use std::time::Duration;

mod common;

fn desk() -> SharedDesk {
    SharedDesk::new(Duration::from_millis(1))
}

fn long(length: usize) -> Vec<u8> {
    (0..length).map(|place| (place * 7) as u8).collect()
}

fn refused<E>(refusal: Refusal) -> TransferError<E> {
    TransferError::Refused(refusal)
}

#[test]
fn uploads_of_every_length() {
    let (desk, mut data) = (desk(), [0xa5; 300]);
    for mailbox_size in [16, 32, 48, 1486] {
        for length in (1..=24).chain([48, 100, 255, 256]) {
            let mut handle = Drive::new(mailbox_size).with(0x2000, 5, &long(length)).shared();
            let payload = desk.transfer(Order::upload(0x2000, 5), &mut data, &mut handle).unwrap();
            assert_eq!((payload.bytes(), payload.is_cut()), (&long(length)[..], false));
        }
    }
}

#[test]
fn complete_access() {
    let mut handle = Drive::new(64).with(0x1018, 0, &[2]).with(0x1018, 1, &[1, 2, 3, 4]).with(0x1018, 2, &[5, 6]).shared();
    let mut data = [0; 16];
    let payload = desk().transfer(Order::upload(0x1018, SubIndex::Complete), &mut data, &mut handle).unwrap();
    assert_eq!(payload.bytes(), [1, 2, 3, 4, 5, 6]);
}

#[test]
fn downloads() {
    let (desk, mut handle) = (desk(), Drive::new(64).with(0x6060, 0, &[0; 3]).shared());
    assert_eq!(desk.transfer(Order::download(0x6060, 0, &[7, 8, 9]), &mut [], &mut handle).unwrap().length(), 0);
    assert_eq!(handle.drive().object(0x6060, 0), Some(&[7, 8, 9][..]));
    let error = desk.transfer(Order::download(0x6060, 0, &[1, 2]), &mut [], &mut handle).unwrap_err();
    assert_eq!(error, refused(Refusal::Aborted { code: AbortCode::DataLengthMismatch, index: 0x6060, sub_index: 0 }));
    assert_eq!(handle.drive().object(0x6060, 0), Some(&[7, 8, 9][..]));
}

fn hundred_objects() -> Handle {
    (0..100).fold(Drive::new(32), |drive, number| drive.with(0x2000 + number, 0, &[1])).shared()
}

#[test]
fn lists_and_quantities() {
    let (desk, mut handle, mut data) = (desk(), hundred_objects(), [0; 256]);
    let list = desk.transfer_within(Order::ObjectList(ListKind::All), 65_535, &mut data, &mut handle).unwrap();
    assert!(list.object_list().unwrap().eq(0x2000..0x2064));
    let none = desk.transfer(Order::ObjectList(ListKind::RxPdoMappable), &mut data, &mut handle).unwrap();
    assert_eq!(none.object_list().unwrap().count(), 0);
    let counts = desk.transfer(Order::Quantities, &mut data, &mut handle).unwrap().quantities().unwrap();
    assert_eq!((counts.all, counts.rx_pdo_mappable, counts.startup_parameters), (100, 0, 0));
}

#[test]
fn aborts_name_the_object() {
    let (desk, mut handle) = (desk(), hundred_objects());
    for (index, sub_index, code) in [(0x3000, 1, AbortCode::NotFound), (0x2000, 9, AbortCode::SubIndexNotFound)] {
        let error = desk.transfer(Order::upload(index, sub_index), &mut [0; 4], &mut handle).unwrap_err();
        assert_eq!(error, refused(Refusal::Aborted { code, index, sub_index }));
    }
}

#[test]
fn small_buffers() {
    let mut handle = Drive::new(32).with(0x2000, 0, &[1, 2, 3, 4]).with(0x2001, 0, &long(40)).shared();
    let (desk, mut data) = (desk(), [0xa5; 39]);
    let cut = desk.transfer(Order::upload(0x2000, 0), &mut data[..2], &mut handle).unwrap();
    assert_eq!((cut.bytes(), cut.length(), cut.is_cut()), (&[1, 2][..], 4, true));
    let error = desk.transfer(Order::upload(0x2001, 0), &mut data, &mut handle).unwrap_err();
    assert_eq!((error, data[2]), (refused(Refusal::TooLarge), 0xa5));
}

#[test]
fn budgets() {
    let (desk, mut data) = (desk(), [0; 64]);
    let mut handle = Drive::new(32).with(0x2001, 0, &long(40)).shared();
    // The first reply, and segments of 23 and 17 bytes.
    let error = desk.transfer_within(Order::upload(0x2001, 0), 2, &mut data, &mut handle).unwrap_err();
    assert_eq!(error, refused(Refusal::BudgetSpent));
    assert_eq!(desk.transfer_within(Order::upload(0x2001, 0), 3, &mut data, &mut handle).unwrap().length(), 40);
    assert_eq!(desk.transfer_within(Order::Quantities, 0, &mut data, &mut handle), Err(refused(Refusal::BadOrder)));
}
