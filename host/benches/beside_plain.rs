//! The archive's functions beside the same rules in plain Rust: `tools/speed/places`. First both are checked to do the same.

// The crate brings the archive along. Its declarations are used as they stand, and not all are needed: the conversions of its
// public types would be timed too.
use coe_desk as _;
#[allow(unused)]
#[path = "../src/ffi/mod.rs"]
mod ffi;
mod plain;
mod same;
mod timing;
mod works;

use ffi::Record;
use plain::Desk;
use timing::print_ratio;
use works::inputs::{lists, payload, segment, uploads};
use works::inputs::{ABORT, EXPEDITED, INDEX, LIST, LONGEST, ROOM, SEGMENT, UPLOAD, WRONG_TYPE};

fn print_row(table: &str, row: &str, archive: impl FnMut() -> f64, plain: impl FnMut() -> f64) {
    print_ratio(table, row, "", archive, plain);
}

/// The archive's writers, whose flags are numbers; `ffi` takes care that they are 0 or 1.
mod archive {
    use super::ffi;
    pub use ffi::list_frame;

    #[inline(always)]
    pub fn upload_frame(counter: u8, index: u16, sub: u8, complete: u8, frame: &mut [u8]) -> u8 {
        ffi::upload_frame(counter, index, sub, complete == 1, frame)
    }

    #[inline(always)]
    pub fn download_frame(counter: u8, index: u16, sub: u8, complete: u8, data: &[u8], frame: &mut [u8]) -> u8 {
        ffi::download_frame(counter, index, sub, complete == 1, data, frame)
    }

    #[inline(always)]
    pub fn segment_frame(counter: u8, toggle: u8, frame: &mut [u8]) -> u8 {
        ffi::segment_frame(counter, toggle == 1, frame)
    }
}

fn writers() {
    for (length, into) in [(16, "16 bytes"), (1486, "1,486 bytes")] {
        macro_rules! row {
            ($work:ident, $writer:ident) => {
                let (archive, plain) = (|| works::$work(archive::$writer, length), || works::$work(plain::$writer, length));
                print_row("writers", &format!(concat!("`coe_", stringify!($writer), "` into {}"), into), archive, plain);
            };
        }
        row!(upload, upload_frame);
        row!(download, download_frame);
        row!(segment, segment_frame);
        row!(list, list_frame);
    }
}

fn judgements() {
    for (name, kind, reply) in [
        ("an expedited reply", UPLOAD, EXPEDITED.to_vec()),
        ("an abort, refused with 22", UPLOAD, ABORT.to_vec()),
        ("a reply of a wrong type, refused with 23", UPLOAD, WRONG_TYPE.to_vec()),
        ("a segment of 1,486 bytes", SEGMENT, segment(&payload(LONGEST), false)),
    ] {
        let archive = || works::judge(ffi::judge, kind, &reply, 4096);
        let plain = || works::judge(plain::judge, kind, &reply, 4096);
        print_row("judge", &format!("`coe_judge` of {name}"), archive, plain);
    }
}

fn desks() {
    for n in [1, 8] {
        let row = |name: &str, archive: fn(u8) -> f64, plain: fn(u8) -> f64| {
            print_row("desk", &format!("{name}, {n} in the line"), || archive(n), || plain(n));
        };
        row("`coe_desk_enter`", works::enter::<Record>, works::enter::<Desk>);
        row("`coe_desk_send`", works::send::<Record>, works::send::<Desk>);
        row("`coe_desk_receive`", works::receive::<Record>, works::receive::<Desk>);
        row("`coe_desk_leave`", works::leave::<Record>, works::leave::<Desk>);
        row("send, receive and enter", works::round_trip::<Record>, works::round_trip::<Desk>);
    }
    let (archive, plain) = (|| works::refused_send::<Record>(8), || works::refused_send::<Desk>(8));
    print_row("desk", "`coe_desk_send` refused with 13, 8 in the line", archive, plain);
}

fn transfers() {
    for (name, kind, index, replies) in [
        ("an upload of 65,536 bytes", UPLOAD, INDEX, uploads(&payload(65_536))),
        ("an object list of 131,070 bytes", LIST, 1, lists(&payload(ROOM))),
    ] {
        let (mut lent, mut data) = (vec![0; ROOM], vec![0; ROOM]);
        let archive = || works::transfer::<Record>(kind, index, &replies, &mut lent);
        let plain = || works::transfer::<Desk>(kind, index, &replies, &mut data);
        print_row("desk", &format!("{name} in {} replies", replies.len()), archive, plain);
    }
}

/// A difference of two works has no instructions of its own.
fn storing() {
    if timing::counting() {
        return;
    }
    print_row("storing", "storing a chunk of 1,477 bytes", || works::stored(LONGEST), || works::copied(LONGEST));
}

/// What a reply costs by its chunk's length, by N and by the line's length.
fn growth() {
    for length in [0, 4, 7, 64, 512, LONGEST] {
        let reply = segment(&payload(length), false);
        for (room, n) in [(4, "4"), (4_096, "4,096"), (ROOM, "131,070")].into_iter().filter(|(room, _)| length <= *room) {
            let archive = || works::judge(ffi::judge, SEGMENT, &reply, room);
            let plain = || works::judge(plain::judge, SEGMENT, &reply, room);
            print_ratio("growth", &length.to_string(), &format!("`coe_judge`, N {n}"), archive, plain);
        }
        for n in [1, 8] {
            let (mut lent, mut data) = (vec![0; ROOM], vec![0; ROOM]);
            let archive = || works::receive_segment::<Record>(n, &reply, &mut lent);
            let plain = || works::receive_segment::<Desk>(n, &reply, &mut data);
            print_ratio("growth", &length.to_string(), &format!("`coe_desk_receive`, {n} in the line"), archive, plain);
        }
    }
}

fn main() {
    if !timing::counting() {
        same::check();
    }
    writers();
    judgements();
    storing();
    desks();
    transfers();
    growth();
}
