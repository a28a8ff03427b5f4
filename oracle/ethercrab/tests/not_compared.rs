//! What the published code does where our functions have nothing to be compared with: the rows N of docs/DIFFERENCES.md.
use ethercrab::error::{Error, MailboxError};
use ethercrab::play::at_once;
use ethercrab::wire::EtherCrabWireWrite;
use ethercrab::{Coe, MailboxConfig, Script, SubDevice, SubDeviceRef};

/// Runs a call on a drive with these mailboxes and this script; the requests that were sent are in the script.
fn called<T>(mailboxes: MailboxConfig, script: &Script, call: impl FnOnce(Coe<'_, &SubDevice>) -> T) -> T {
    let state = SubDevice::new(mailboxes, 1);
    call(Coe::new(&SubDeviceRef::new(script, &state)))
}

fn value(byte: u8) -> Vec<u8> {
    vec![0x0a, 0, 0, 0, 0, 0x13, 0, 0x30, 0x4f, 0x18, 0x10, 1, byte, 0, 0, 0]
}

fn read(script: &Script) -> Result<u8, Error> {
    called(MailboxConfig::BOTH, script, |coe| at_once(coe.sdo_read::<u8>(0x1018, 1)))
}

#[test]
fn ten_stale_replies_are_read_off_and_the_eleventh_is_taken_for_the_answer() {
    for (stale, answer) in [(0, 0xaa), (1, 0xaa), (10, 0xaa), (11, 11)] {
        let script = Script::new(&[value(0xaa)]);
        script.stale.borrow_mut().extend((1..=stale).map(value));
        assert_eq!(read(&script), Ok(answer));
    }
}

#[test]
fn without_mailboxes_lists_are_none_and_the_errors_names_are_exchanged() {
    let script = Script::default();
    let quantities = called(MailboxConfig::NONE, &script, |coe| at_once(coe.sdo_info_object_quantities()));
    assert_eq!(quantities, Ok(None));
    let read = called(MailboxConfig::NONE, &script, |coe| at_once(coe.sdo_read::<u8>(0x1018, 1)));
    assert_eq!(read, Err(Error::Mailbox(MailboxError::NoReadMailbox)));
}

/// A drive that takes every write of 0x1c13.
fn taking(writes: usize) -> Script {
    let reply = |sub: usize| vec![0x0a, 0, 0, 0, 0, 0x13, 0, 0x30, 0x60, 0x13, 0x1c, sub as u8, 0, 0, 0, 0];
    let subs = std::iter::once(0).chain(1..writes - 1).chain(std::iter::once(0));
    Script::new(&subs.map(reply).collect::<Vec<_>>())
}

fn write_array<T: EtherCrabWireWrite>(script: &Script, values: &[T]) -> Result<(), Error> {
    called(MailboxConfig::BOTH, script, |coe| at_once(coe.sdo_write_array(0x1c13, values)))
}

#[test]
fn the_256th_element_of_an_array_goes_to_sub_index_0_and_so_does_the_count() {
    let script = taking(258);
    assert_eq!(write_array(&script, &[7u8; 256]), Ok(()));
    let sent = script.sent.borrow();
    assert_eq!(sent[256][11..13], [0, 7]);
    assert_eq!(sent[257][11..13], [0, 0]);
}

#[test]
fn an_element_above_four_bytes_is_refused_after_the_count_was_cleared() {
    let script = taking(3);
    assert_eq!(write_array(&script, &[[7u8; 5]]), Err(Error::Internal));
    assert_eq!(script.sent.borrow().len(), 1);
}
