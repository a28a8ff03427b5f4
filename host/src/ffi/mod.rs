//! The archive's functions over references and slices: the only unsafe code of the crate.
//!
//! Each function of the archive is proved to judge every number and every length it is handed. What it asks of its caller is what
//! C can't say: pointers to as many readable or writable bytes as the length beside them, none of them overlapping, and a record
//! that the desk's calls made. Slices and references are all of that, and a [`Record`] has no other maker than [`Record::fresh`].

mod declared;
#[cfg(test)]
mod tests;

use declared::*;

/// The header's `coe_desk`, of its size and alignment. What it holds is the desk's own.
#[repr(C)]
pub struct Record {
    opaque: [u64; 26],
}

#[repr(C)]
#[derive(Debug, Clone, Copy, PartialEq, Eq)]
pub struct Answer {
    pub number: u8,
    pub sub: u8,
    pub index: u16,
    pub code: u32,
    pub length: u32,
    pub data: u64,
}

#[repr(C)]
pub struct Unsigned {
    pub number: u8,
    pub value: u32,
}

#[repr(C)]
pub struct Signed {
    pub number: u8,
    pub value: i32,
}

#[repr(C)]
pub struct Item {
    pub number: u8,
    pub index: u16,
    pub next: usize,
}

#[repr(C)]
pub struct Quantities {
    pub number: u8,
    pub all: u16,
    pub rx_pdo_mappable: u16,
    pub tx_pdo_mappable: u16,
    pub stored_for_device_replacement: u16,
    pub startup_parameters: u16,
}

pub fn upload_frame(counter: u8, index: u16, sub: u8, complete: bool, frame: &mut [u8]) -> u8 {
    // SAFETY: the slice is writable for its length.
    unsafe { coe_upload_frame(counter, index, sub, complete.into(), frame.as_mut_ptr(), frame.len()) }
}

pub fn download_frame(counter: u8, index: u16, sub: u8, complete: bool, data: &[u8], frame: &mut [u8]) -> u8 {
    let (complete, data_len, frame_len) = (complete.into(), data.len(), frame.len());
    // SAFETY: `data` is readable and `frame` writable for its length, and a unique borrow overlaps no other.
    unsafe { coe_download_frame(counter, index, sub, complete, data.as_ptr(), data_len, frame.as_mut_ptr(), frame_len) }
}

pub fn segment_frame(counter: u8, toggle: bool, frame: &mut [u8]) -> u8 {
    // SAFETY: the slice is writable for its length.
    unsafe { coe_segment_frame(counter, toggle.into(), frame.as_mut_ptr(), frame.len()) }
}

pub fn list_frame(counter: u8, kind: u16, frame: &mut [u8]) -> u8 {
    // SAFETY: the slice is writable for its length.
    unsafe { coe_list_frame(counter, kind, frame.as_mut_ptr(), frame.len()) }
}

pub fn judge(kind: u8, index: u16, sub: u8, earlier: u32, reply: &[u8], data: &mut [u8]) -> Answer {
    let (reply_len, data_len) = (reply.len(), data.len());
    // SAFETY: `reply` is readable and `data` writable for its length, and a unique borrow overlaps no other.
    unsafe { coe_judge(kind, index, sub, earlier, reply.as_ptr(), reply_len, data.as_mut_ptr(), data_len) }
}

impl Record {
    pub fn fresh() -> Record {
        let mut record = Record { opaque: [0; 26] };
        // SAFETY: the record is of the header's size and alignment, and `coe_desk_fresh` takes any bytes in it.
        unsafe { coe_desk_fresh(&mut record) };
        record
    }

    pub fn enter(&mut self, seat: u8, kind: u8, index: u16, sub: u8, data: &[u8]) -> Answer {
        // SAFETY: `fresh` and the desk's calls made the record; `data` is readable for its length, and overlaps no unique borrow.
        unsafe { coe_desk_enter(self, seat, kind, index, sub, data.as_ptr(), data.len()) }
    }

    pub fn enter_within(&mut self, seat: u8, kind: u8, index: u16, sub: u8, data: &[u8], budget: u16) -> Answer {
        // SAFETY: as of `enter`.
        unsafe { coe_desk_enter_within(self, seat, kind, index, sub, data.as_ptr(), data.len(), budget) }
    }

    pub fn send(&mut self, seat: u8, frame: &mut [u8]) -> Answer {
        // SAFETY: `fresh` and the desk's calls made the record; `frame` is writable for its length, and overlaps no other borrow.
        unsafe { coe_desk_send(self, seat, frame.as_mut_ptr(), frame.len()) }
    }

    pub fn receive(&mut self, seat: u8, reply: &[u8], data: &mut [u8]) -> Answer {
        let (reply_len, data_len) = (reply.len(), data.len());
        // SAFETY: `fresh` and the desk's calls made the record; `reply` is readable and `data` writable for its length, and a
        // unique borrow overlaps no other.
        unsafe { coe_desk_receive(self, seat, reply.as_ptr(), reply_len, data.as_mut_ptr(), data_len) }
    }

    pub fn leave(&mut self, seat: u8) -> Answer {
        // SAFETY: `fresh` and the desk's calls made the record.
        unsafe { coe_desk_leave(self, seat) }
    }
}

/// The reads, which differ in name and answer alone.
macro_rules! reads {
    ($($name:ident = $exported:ident -> $answer:ty;)*) => {
        $(pub fn $name(payload: &[u8]) -> $answer {
            // SAFETY: the slice is readable for its length.
            unsafe { $exported(payload.as_ptr(), payload.len()) }
        })*
    };
}

reads! {
    read_u8 = coe_read_u8 -> Unsigned;
    read_u16 = coe_read_u16 -> Unsigned;
    read_u32 = coe_read_u32 -> Unsigned;
    read_i8 = coe_read_i8 -> Signed;
    read_i16 = coe_read_i16 -> Signed;
    read_i32 = coe_read_i32 -> Signed;
    read_quantities = coe_read_quantities -> Quantities;
}

pub fn list_item(payload: &[u8], at: usize) -> Item {
    // SAFETY: the slice is readable for its length.
    unsafe { coe_list_item(payload.as_ptr(), payload.len(), at) }
}
