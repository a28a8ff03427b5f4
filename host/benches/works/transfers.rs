//! Whole transfers through the desk.
use super::desks::Calls;
use super::inputs::SUB;
use crate::ffi::Answer;
use crate::timing::{each, opaque};

/// In one round.
const TRANSFERS: u32 = 24;

/// One transfer from its entry on: a request is sent and the next reply received as the answers say, up to the last one.
pub fn transferred<D: Calls>(desk: &mut D, kind: u8, index: u16, replies: &[Vec<u8>], data: &mut [u8]) -> Answer {
    let mut frame = [0; 16];
    let mut replies = replies.iter();
    let mut answer = desk.enter(0, kind, index, SUB, &[]);
    loop {
        answer = match answer.number {
            0x01 => desk.send(0, &mut frame),
            0x02 => desk.receive(0, replies.next().expect("the last reply ends the transfer"), data),
            _ => return answer,
        }
    }
}

pub fn transfer<D: Calls>(kind: u8, index: u16, replies: &[Vec<u8>], data: &mut [u8]) -> f64 {
    let mut desk = D::fresh();
    let (kind, index, replies, data) = (opaque(kind), opaque(index), opaque(replies), opaque(data));
    each(TRANSFERS, || assert_eq!(transferred(&mut desk, kind, index, replies, data).number, 0x00))
}
