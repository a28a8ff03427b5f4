//! Stand-in: bytes that came in, with a front that can be cut off.
use std::marker::PhantomData;
use std::ops::Deref;

#[derive(Debug)]
pub struct ReceivedPdu<'sto> {
    data: Vec<u8>,
    start: usize,
    storage: PhantomData<&'sto ()>,
}

impl ReceivedPdu<'_> {
    pub(crate) fn new(data: Vec<u8>) -> Self {
        Self { data, start: 0, storage: PhantomData }
    }

    /// OPEN: to cut more than there is. Here nothing is left then, as document 01 has it: "an empty chunk always is" there.
    pub(crate) fn trim_front(&mut self, count: usize) {
        self.start = (self.start + count).min(self.data.len());
    }
}

impl Deref for ReceivedPdu<'_> {
    type Target = [u8];

    fn deref(&self) -> &[u8] {
        &self.data[self.start..]
    }
}
