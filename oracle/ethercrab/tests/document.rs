//! The published code over the stand-ins gives the frames and answers that document 01 prints.
use ethercrab::assertion;
use ethercrab::error::{Error, MailboxError};
use ethercrab::play::{play, Call, Lent, Number, Outcome, Played};
use ethercrab::wire::WireError;
use ethercrab::{frames, CoeAbortCode, ObjectDescriptionListQuery, SubIndex};

fn bytes(hex: &str) -> Vec<u8> {
    (0..hex.len()).step_by(2).map(|at| u8::from_str_radix(&hex[at..at + 2], 16).unwrap()).collect()
}

fn played(call: Call<'_>, buffer: usize, replies: &[&str]) -> Played {
    let replies: Vec<Vec<u8>> = replies.iter().map(|reply| bytes(reply)).collect();
    play(call, Lent { counter: 1, buffer, fill: 0xa5, capacity: 131_070 }, &replies)
}

const OBJECT: Call<'static> = Call::Read { index: 0x1018, access: SubIndex::Index(1) };

#[test]
fn frames_are_the_documents() {
    assert_eq!(frames::upload(7, 0x1018, SubIndex::Complete), bytes("0a0000000073002050181001"));
    assert_eq!(frames::download(2, 0x6060, SubIndex::Index(0), [8, 0, 0, 0], 1), bytes("0a000000002300202f60600008000000"));
    assert_eq!(frames::segment(3, true), bytes("0a0000000033002070"));
    assert_eq!(frames::object_list(1, ObjectDescriptionListQuery::All), bytes("0800000000130080010000000100"));
    assert_eq!(frames::quantities(1), bytes("0800000000130080010000000000"));
}

#[test]
fn the_order_files_example() {
    let run = played(OBJECT, 4, &["0a000000001300304318100178563412"]);
    assert_eq!(run.outcome, Outcome::Payload(bytes("78563412")));
    assert_eq!(run.sent, [bytes("0a000000001300204018100100000000")]);
    assert_eq!((run.judged, run.counter), (1, 2));
}

#[test]
fn segments_are_stored_behind_each_other_and_the_rest_is_left() {
    let announced = "0a000000001300304118100109000000";
    let full = "0a000000001300306000000001020304050607";
    let one_of_seven = "0a000000001300307d00000008eeeeeeeeeeee";
    let run = played(OBJECT, 10, &[announced, full, one_of_seven]);
    assert_eq!(run.outcome, Outcome::Payload(bytes("0102030405060708")));
    assert_eq!(run.buffer, bytes("0102030405060708a5a5"));
    let toggles: Vec<u8> = run.sent[1..].iter().map(|frame| frame[8]).collect();
    assert_eq!(toggles, [0x60, 0x70]);
}

/// Document 01: "The chunk starts at byte 12, where the source takes it." Document 02 has it at byte 9.
#[test]
fn segment_data_are_taken_from_byte_12_and_eleven_bytes_are_too_short() {
    let announced = "0a000000001300304118100102000000";
    let run = played(OBJECT, 4, &[announced, "0a000000001300306b61626364656667"]);
    assert_eq!(run.outcome, Outcome::Payload(bytes("6465")));
    let run = played(OBJECT, 4, &[announced, "0a000000001300306b6162"]);
    assert_eq!(run.outcome, Outcome::Refused(Error::Wire(WireError::ReadBufferTooShort)));
}

/// Document 01: "under 20 bytes is 20; else 21, code at 12-13, register at 14, where the source places them." Document 02 has them at
/// bytes 8 to 10, of 16.
#[test]
fn emergencies_are_asserted_against_and_behind_that_their_code_is_at_byte_12() {
    let emergency = "0a00000000130010308111010203040506070809";
    let played = |length: usize| played(OBJECT, 4, &[&emergency[..2 * length]]).outcome;
    for length in [12, 16, 20] {
        assert!(matches!(played(length), Outcome::Panicked(text) if text.contains("assertion")), "{length} bytes");
    }
    let told = MailboxError::Emergency { error_code: 0x0302, error_register: 0x04 };
    assert_eq!(assertion::without(|| played(20)), Outcome::Refused(Error::Mailbox(told)));
    assert_eq!(assertion::without(|| played(19)), Outcome::Refused(Error::Wire(WireError::ReadBufferTooShort)));
}

#[test]
fn lists_are_collected_and_what_is_not_there_panics() {
    let fragments = ["0c0000000013008082000100010000101810", "0a00000000130080020000006060"];
    let run = played(Call::List { kind: 1 }, 0, &fragments);
    assert_eq!(run.outcome, Outcome::Numbers(vec![0x1000, 0x1018, 0x6060]));
    assert_eq!(run.stored, bytes("001018106060"));
    let run = played(Call::List { kind: 1 }, 0, &[fragments[0], "0b00000000130080020000006060"]);
    assert!(matches!(&run.outcome, Outcome::Panicked(text) if text.contains("range end index")));
    assert_eq!(run.stored, bytes("00101810"));
}

#[test]
fn numbers_and_abort_codes() {
    let number = Call::ReadNumber { index: 0x1018, access: SubIndex::Index(1), number: Number::I16 };
    assert_eq!(played(number, 0, &["0a000000001300304b181001ffff0000"]).outcome, Outcome::Numbers(vec![-1]));
    let aborted = MailboxError::Aborted { code: CoeAbortCode::NotFound, address: 0x1018, sub_index: 1 };
    let run = played(OBJECT, 4, &["0a000000001500308018100100000206"]);
    assert_eq!(run.outcome, Outcome::Refused(Error::Mailbox(aborted)));
}
