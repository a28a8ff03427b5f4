//! include/coe_desk.h, function for function.
use super::{Answer, Item, Quantities, Record, Signed, Unsigned};

#[rustfmt::skip]
extern "C" {
    pub fn coe_upload_frame(counter: u8, index: u16, sub: u8, complete: u8, frame: *mut u8, frame_len: usize) -> u8;
    pub fn coe_download_frame(
        counter: u8, index: u16, sub: u8, complete: u8, data: *const u8, data_len: usize, frame: *mut u8, frame_len: usize,
    ) -> u8;
    pub fn coe_segment_frame(counter: u8, toggle: u8, frame: *mut u8, frame_len: usize) -> u8;
    pub fn coe_list_frame(counter: u8, kind: u16, frame: *mut u8, frame_len: usize) -> u8;

    pub fn coe_judge(
        kind: u8, index: u16, sub: u8, earlier: u32, reply: *const u8, reply_len: usize, data: *mut u8, data_len: usize,
    ) -> Answer;

    pub fn coe_desk_fresh(desk: *mut Record);
    pub fn coe_desk_enter(
        desk: *mut Record, seat: u8, kind: u8, index: u16, sub: u8, data: *const u8, data_len: usize,
    ) -> Answer;
    pub fn coe_desk_enter_within(
        desk: *mut Record, seat: u8, kind: u8, index: u16, sub: u8, data: *const u8, data_len: usize, budget: u16,
    ) -> Answer;
    pub fn coe_desk_send(desk: *mut Record, seat: u8, frame: *mut u8, frame_len: usize) -> Answer;
    pub fn coe_desk_receive(
        desk: *mut Record, seat: u8, reply: *const u8, reply_len: usize, data: *mut u8, data_len: usize,
    ) -> Answer;
    pub fn coe_desk_leave(desk: *mut Record, seat: u8) -> Answer;

    pub fn coe_read_u8(payload: *const u8, len: usize) -> Unsigned;
    pub fn coe_read_u16(payload: *const u8, len: usize) -> Unsigned;
    pub fn coe_read_u32(payload: *const u8, len: usize) -> Unsigned;
    pub fn coe_read_i8(payload: *const u8, len: usize) -> Signed;
    pub fn coe_read_i16(payload: *const u8, len: usize) -> Signed;
    pub fn coe_read_i32(payload: *const u8, len: usize) -> Signed;
    pub fn coe_list_item(payload: *const u8, len: usize, at: usize) -> Item;
    pub fn coe_read_quantities(payload: *const u8, len: usize) -> Quantities;
}
