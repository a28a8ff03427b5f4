//! A drive to try the desk on: it holds objects, takes a request and gives the replies, laid out as the desk reads them.
#![allow(dead_code)] // each test and example uses a part of it
use coe_desk::Mailbox;
use std::collections::VecDeque;
use std::convert::Infallible;
use std::sync::{Arc, Mutex, PoisonError};
use std::time::Duration;

/// Where a segment's data begin in its reply, by ETG.1000.6.
const SEGMENT_DATA: usize = 9;

const NOT_FOUND: u32 = 0x0602_0000;
const SUB_INDEX_NOT_FOUND: u32 = 0x0609_0011;
const LENGTH_MISMATCH: u32 = 0x0607_0010;
const TOGGLE: u32 = 0x0503_0000;
const INVALID_COMMAND: u32 = 0x0504_0001;

pub struct Drive {
    mailbox_size: usize,
    objects: Vec<(u16, u8, Vec<u8>)>,
    /// The upload that is half sent: what is left of it, and the toggle that its next request has.
    half_sent: Option<(Vec<u8>, bool)>,
    replies: VecDeque<Vec<u8>>,
}

impl Drive {
    pub fn new(mailbox_size: usize) -> Drive {
        Drive { mailbox_size, objects: Vec::new(), half_sent: None, replies: VecDeque::new() }
    }

    pub fn with(mut self, index: u16, sub: u8, bytes: &[u8]) -> Drive {
        self.objects.push((index, sub, bytes.to_vec()));
        self
    }

    pub fn shared(self) -> Handle {
        Handle(Arc::new(Mutex::new(self)))
    }

    pub fn object(&self, index: u16, sub: u8) -> Option<&[u8]> {
        self.objects.iter().find(|object| (object.0, object.1) == (index, sub)).map(|object| &object.2[..])
    }

    /// An emergency message, which lies in the mailbox behind what is there already.
    pub fn raise(&mut self, code: u16, register: u8, data: [u8; 5]) {
        self.replies.push_back(emergency(code, register, data));
    }

    /// The next reply, if one is there.
    pub fn reply(&mut self) -> Option<Vec<u8>> {
        self.replies.pop_front()
    }

    /// Takes a request. One that it does not understand gets no reply.
    pub fn request(&mut self, frame: &[u8]) {
        let (command, index, sub) = (frame[8], u16::from_le_bytes([frame[9], frame[10]]), frame[11]);
        match (frame[7] >> 4, command >> 5) {
            (2, 1) => self.download(index, sub, &frame[12..16 - usize::from(command >> 2 & 3)]),
            (2, 2) => self.upload(index, sub, command & 0x10 != 0),
            (2, 3) => self.segment(command & 0x10 != 0),
            (8, _) if command == 1 => self.information(u16::from_le_bytes([frame[12], frame[13]])),
            _ => {}
        }
    }

    fn download(&mut self, index: u16, sub: u8, data: &[u8]) {
        self.half_sent = None;
        let code = self.why_not(index);
        let held = self.objects.iter_mut().find(|object| (object.0, object.1) == (index, sub));
        match held {
            None => self.abort(code, index, sub),
            Some(object) if object.2.len() != data.len() => self.abort(LENGTH_MISMATCH, index, sub),
            Some(object) => {
                object.2 = data.to_vec();
                self.sdo(0x60, 10, index, sub, &[0; 4]);
            }
        }
    }

    fn upload(&mut self, index: u16, sub: u8, complete: bool) {
        self.half_sent = None;
        let wanted = |object: &&(u16, u8, Vec<u8>)| object.0 == index && (complete && object.1 > 0 || object.1 == sub);
        let bytes: Vec<u8> = self.objects.iter().filter(wanted).flat_map(|object| object.2.clone()).collect();
        let size = (bytes.len() as u32).to_le_bytes();
        if bytes.is_empty() {
            self.abort(self.why_not(index), index, sub);
        } else if bytes.len() <= 4 {
            let unused = 4 - bytes.len();
            self.sdo(0x43 | (unused as u8) << 2, 10, index, sub, &[&bytes[..], &[0; 4][..unused]].concat());
        } else if 16 + bytes.len() <= self.mailbox_size {
            self.sdo(0x41, 10 + bytes.len(), index, sub, &[&size[..], &bytes].concat());
        } else {
            self.half_sent = Some((bytes, false));
            self.sdo(0x41, 10, index, sub, &size);
        }
    }

    fn segment(&mut self, toggle: bool) {
        match self.half_sent.take() {
            Some((mut chunk, due)) if toggle == due => {
                let rest = chunk.split_off(chunk.len().min(self.mailbox_size - SEGMENT_DATA));
                let unused = 7usize.saturating_sub(chunk.len());
                let command = u8::from(rest.is_empty()) | (unused as u8) << 1 | u8::from(toggle) << 4;
                chunk.resize(chunk.len() + unused, 0);
                let mut reply = front(3 + chunk.len(), 3, command);
                reply.extend(chunk);
                self.replies.push_back(reply);
                self.half_sent = Some((rest, !toggle)).filter(|left| !left.0.is_empty());
            }
            Some(_) => self.abort(TOGGLE, 0, 0),
            None => self.abort(INVALID_COMMAND, 0, 0),
        }
    }

    /// Kind 0 asks for the quantities, 1 for all objects. The other lists are empty.
    fn information(&mut self, kind: u16) {
        let mut indices: Vec<u16> = self.objects.iter().map(|object| object.0).collect();
        indices.dedup();
        let words = match kind {
            0 => vec![indices.len() as u16, 0, 0, 0, 0],
            1 => indices,
            _ => Vec::new(),
        };
        let bytes: Vec<u8> = words.iter().flat_map(|word| word.to_le_bytes()).collect();
        let mut chunks: Vec<&[u8]> = bytes.chunks((self.mailbox_size - 14) & !1).collect();
        if chunks.is_empty() {
            chunks.push(&[]);
        }
        let last = chunks.len() - 1;
        for (number, chunk) in chunks.into_iter().enumerate() {
            let mut reply = front(8 + chunk.len(), 8, 2 | u8::from(number < last) << 7);
            reply.push(0);
            reply.extend(((last - number) as u16).to_le_bytes());
            if number == 0 {
                reply.extend(kind.to_le_bytes());
            }
            reply.extend(chunk);
            self.replies.push_back(reply);
        }
    }

    /// The abort code for an object that is not held.
    fn why_not(&self, index: u16) -> u32 {
        if self.objects.iter().any(|object| object.0 == index) {
            SUB_INDEX_NOT_FOUND
        } else {
            NOT_FOUND
        }
    }

    fn abort(&mut self, code: u32, index: u16, sub: u8) {
        self.sdo(0x80, 10, index, sub, &code.to_le_bytes());
    }

    fn sdo(&mut self, command: u8, length: usize, index: u16, sub: u8, rest: &[u8]) {
        let mut reply = front(length, 3, command);
        reply.extend(index.to_le_bytes());
        reply.push(sub);
        reply.extend(rest);
        self.replies.push_back(reply);
    }
}

/// The first nine bytes of a reply.
fn front(length: usize, service: u8, command: u8) -> Vec<u8> {
    let length = (length as u16).to_le_bytes();
    vec![length[0], length[1], 0, 0, 0, 0x13, 0, service << 4, command]
}

/// By ETG.1000.6 code, register and data follow the CoE header, so that byte 8 is the code's low byte.
pub fn emergency(code: u16, register: u8, data: [u8; 5]) -> Vec<u8> {
    let [low, high] = code.to_le_bytes();
    let mut message = front(10, 1, low);
    message.extend([high, register]);
    message.extend(data);
    message
}

/// A task's way to the drive.
#[derive(Clone)]
pub struct Handle(Arc<Mutex<Drive>>);

impl Handle {
    pub fn drive(&self) -> std::sync::MutexGuard<'_, Drive> {
        self.0.lock().unwrap_or_else(PoisonError::into_inner)
    }
}

impl Mailbox for Handle {
    type Error = Infallible;

    fn write(&mut self, frame: &[u8]) -> Result<(), Infallible> {
        self.drive().request(frame);
        Ok(())
    }

    fn read(&mut self, reply: &mut [u8], _timeout: Duration) -> Result<Option<usize>, Infallible> {
        Ok(self.drive().reply().map(|frame| {
            reply[..frame.len()].copy_from_slice(&frame);
            frame.len()
        }))
    }
}
