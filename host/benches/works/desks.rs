//! The desk's calls.
use super::inputs::{announcement, EXPEDITED, INDEX, SUB, UPLOAD};
use crate::ffi::{Answer, Record};
use crate::plain::Desk;
use crate::timing::{counted, each, opaque};
use std::time::{Duration, Instant};

/// So many desks are brought to the call that is timed, which changes them, and then called one after the other: one call is too
/// short for the clock.
const DESKS: usize = 256;
const PASSES: usize = 2;

/// In one round.
const TRIPS: u32 = 256;

/// The calls that both desks have.
pub trait Calls {
    fn fresh() -> Self;
    fn enter(&mut self, seat: u8, kind: u8, index: u16, sub: u8, data: &[u8]) -> Answer;
    fn enter_within(&mut self, seat: u8, kind: u8, index: u16, sub: u8, data: &[u8], budget: u16) -> Answer;
    fn send(&mut self, seat: u8, frame: &mut [u8]) -> Answer;
    fn receive(&mut self, seat: u8, reply: &[u8], data: &mut [u8]) -> Answer;
    fn leave(&mut self, seat: u8) -> Answer;
}

macro_rules! calls_of {
    ($($desk:ty)*) => {
        $(impl Calls for $desk {
            fn fresh() -> Self {
                <$desk>::fresh()
            }
            #[inline(always)]
            fn enter(&mut self, seat: u8, kind: u8, index: u16, sub: u8, data: &[u8]) -> Answer {
                <$desk>::enter(self, seat, kind, index, sub, data)
            }
            #[inline(always)]
            fn enter_within(&mut self, seat: u8, kind: u8, index: u16, sub: u8, data: &[u8], budget: u16) -> Answer {
                <$desk>::enter_within(self, seat, kind, index, sub, data, budget)
            }
            #[inline(always)]
            fn send(&mut self, seat: u8, frame: &mut [u8]) -> Answer {
                <$desk>::send(self, seat, frame)
            }
            #[inline(always)]
            fn receive(&mut self, seat: u8, reply: &[u8], data: &mut [u8]) -> Answer {
                <$desk>::receive(self, seat, reply, data)
            }
            #[inline(always)]
            fn leave(&mut self, seat: u8) -> Answer {
                <$desk>::leave(self, seat)
            }
        })*
    };
}

calls_of! { Record Desk }

/// A desk with the seats from 0 on in the line.
fn desk_of<D: Calls>(waiting: u8) -> D {
    let mut desk = D::fresh();
    for seat in 0..waiting {
        assert_eq!(desk.enter(seat, UPLOAD, INDEX, SUB, &[]).number, 0x01);
    }
    desk
}

/// One whose head has sent its first request.
fn sent_of<D: Calls>(waiting: u8) -> D {
    let mut desk: D = desk_of(waiting);
    assert_eq!(desk.send(0, &mut [0; 16]).number, 0x02);
    desk
}

/// One whose head has asked for its first segment.
fn asked_of<D: Calls>(waiting: u8) -> D {
    let mut desk: D = sent_of(waiting);
    assert_eq!(desk.receive(0, &announcement(1), &mut [0]).number, 0x01);
    assert_eq!(desk.send(0, &mut [0; 16]).number, 0x02);
    desk
}

/// Nanoseconds for one call on a desk that `prepared` makes.
fn on_each<D>(prepared: impl Fn() -> D, number: u8, mut call: impl FnMut(&mut D) -> Answer) -> f64 {
    let mut desk = prepared();
    if counted(&mut || assert_eq!(call(&mut desk).number, number)) {
        return 0.0;
    }
    let mut spent = Duration::ZERO;
    for _ in 0..PASSES {
        let mut desks: Vec<D> = (0..DESKS).map(|_| prepared()).collect();
        let begun = Instant::now();
        for desk in opaque(&mut desks) {
            assert_eq!(call(desk).number, number);
        }
        spent += begun.elapsed();
    }
    spent.as_nanos() as f64 / (DESKS * PASSES) as f64
}

/// The entry that makes the line `waiting` long.
pub fn enter<D: Calls>(waiting: u8) -> f64 {
    let (seat, kind, index, sub, data) = (opaque(waiting - 1), opaque(UPLOAD), opaque(INDEX), opaque(SUB), opaque(&[][..]));
    on_each(|| desk_of::<D>(waiting - 1), 0x01, |desk| desk.enter(seat, kind, index, sub, data))
}

pub fn send<D: Calls>(waiting: u8) -> f64 {
    let (seat, mut frame) = (opaque(0), [0; 16]);
    let frame = opaque(&mut frame[..]);
    on_each(|| desk_of::<D>(waiting), 0x02, |desk| desk.send(seat, frame))
}

/// The last of the line is told that it is not at the head: 13.
pub fn refused_send<D: Calls>(waiting: u8) -> f64 {
    let (seat, mut frame) = (opaque(waiting - 1), [0; 16]);
    let frame = opaque(&mut frame[..]);
    on_each(|| desk_of::<D>(waiting), 0x13, |desk| desk.send(seat, frame))
}

/// The reply by which the head's transfer is done.
pub fn receive<D: Calls>(waiting: u8) -> f64 {
    let (seat, reply, mut data) = (opaque(0), opaque(&EXPEDITED[..]), [0; 4]);
    let data = opaque(&mut data[..]);
    on_each(|| sent_of::<D>(waiting), 0x00, |desk| desk.receive(seat, reply, data))
}

/// A segment that others follow.
pub fn receive_segment<D: Calls>(waiting: u8, reply: &[u8], data: &mut [u8]) -> f64 {
    let (seat, reply, data) = (opaque(0), opaque(reply), opaque(data));
    on_each(|| asked_of::<D>(waiting), 0x01, |desk| desk.receive(seat, reply, data))
}

/// The head leaves, and all others move up.
pub fn leave<D: Calls>(waiting: u8) -> f64 {
    let seat = opaque(0);
    on_each(|| desk_of::<D>(waiting), 0x03, |desk| desk.leave(seat))
}

/// The head sends and receives its payload, and then enters again at the end of the line.
pub fn round_trip<D: Calls>(waiting: u8) -> f64 {
    let mut desk: D = desk_of(waiting);
    let (mut frame, mut data, mut seat) = ([0; 16], [0; 4], 0);
    let (frame, data, reply) = (opaque(&mut frame[..]), opaque(&mut data[..]), opaque(&EXPEDITED[..]));
    let (kind, index, sub, none) = (opaque(UPLOAD), opaque(INDEX), opaque(SUB), opaque(&[][..]));
    each(TRIPS, || {
        let numbers = [
            desk.send(seat, frame).number,
            desk.receive(seat, reply, data).number,
            desk.enter(seat, kind, index, sub, none).number,
        ];
        assert_eq!(numbers, [0x02, 0x00, 0x01]);
        seat = if seat + 1 == waiting { 0 } else { seat + 1 };
    })
}
