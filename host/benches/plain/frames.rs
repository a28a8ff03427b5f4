//! The requests and their writers.

/// An object's address. Complete access has sub-index 1.
#[derive(Debug, Clone, Copy)]
pub struct Object {
    pub index: u16,
    pub sub: u8,
    pub complete: bool,
}

#[derive(Debug, Clone, Copy)]
pub enum Request {
    Upload(Object),
    Download(Object, Data),
    Segment {
        toggle: bool,
    },
    /// Kind 0 asks for the quantities.
    List {
        kind: u16,
    },
}

/// A download's one to four bytes, and zeros behind them.
#[derive(Debug, Clone, Copy)]
pub struct Data {
    bytes: [u8; 4],
    len: u8,
}

impl Object {
    pub fn new(index: u16, sub: u8, complete: bool) -> Object {
        Object { index, sub: if complete { 1 } else { sub }, complete }
    }
}

impl Data {
    pub fn new(data: &[u8]) -> Option<Data> {
        if !(1..=4).contains(&data.len()) {
            return None;
        }
        let mut bytes = [0; 4];
        bytes[..data.len()].copy_from_slice(data);
        Some(Data { bytes, len: data.len() as u8 })
    }
}

impl Request {
    fn pack(self, counter: u8) -> [u8; 16] {
        let mut bytes = [0; 16];
        let (length, service) = if matches!(self, Request::List { .. }) { (8, 8) } else { (10, 2) };
        bytes[0] = length;
        bytes[5] = counter << 4 | 3;
        bytes[7] = service << 4;
        match self {
            Request::Upload(object) => address(&mut bytes, 2 << 5, object),
            Request::Download(object, data) => {
                address(&mut bytes, 1 << 5 | (4 - data.len) << 2 | 3, object);
                bytes[12..].copy_from_slice(&data.bytes);
            }
            Request::Segment { toggle } => bytes[8] = 3 << 5 | u8::from(toggle) << 4,
            Request::List { kind } => {
                bytes[8] = 1;
                bytes[12..14].copy_from_slice(&kind.to_le_bytes());
            }
        }
        bytes
    }

    /// The frame at the front of the lent buffer, and zeros behind it: 02, or 16.
    pub fn write(self, counter: u8, frame: &mut [u8]) -> u8 {
        if !(16..=1486).contains(&frame.len()) {
            return 0x16;
        }
        let (front, rest) = frame.split_at_mut(16);
        front.copy_from_slice(&self.pack(counter));
        rest.fill(0);
        0x02
    }
}

fn address(bytes: &mut [u8; 16], command: u8, object: Object) {
    bytes[8] = command | u8::from(object.complete) << 4;
    bytes[9..11].copy_from_slice(&object.index.to_le_bytes());
    bytes[11] = object.sub;
}

/// A flag comes as a number, as it does from C.
fn flag(number: u8) -> Option<bool> {
    (number <= 1).then_some(number == 1)
}

fn write_counted(counter: u8, request: Option<Request>, frame: &mut [u8]) -> u8 {
    match request {
        Some(request) if (1..=7).contains(&counter) => request.write(counter, frame),
        _ => 0x15,
    }
}

#[inline(never)]
pub fn upload_frame(counter: u8, index: u16, sub: u8, complete: u8, frame: &mut [u8]) -> u8 {
    let request = flag(complete).map(|complete| Request::Upload(Object::new(index, sub, complete)));
    write_counted(counter, request, frame)
}

#[inline(never)]
pub fn download_frame(counter: u8, index: u16, sub: u8, complete: u8, data: &[u8], frame: &mut [u8]) -> u8 {
    let object = flag(complete).map(|complete| Object::new(index, sub, complete));
    let request = object.and_then(|object| Data::new(data).map(|data| Request::Download(object, data)));
    write_counted(counter, request, frame)
}

#[inline(never)]
pub fn segment_frame(counter: u8, toggle: u8, frame: &mut [u8]) -> u8 {
    write_counted(counter, flag(toggle).map(|toggle| Request::Segment { toggle }), frame)
}

#[inline(never)]
pub fn list_frame(counter: u8, kind: u16, frame: &mut [u8]) -> u8 {
    write_counted(counter, (kind <= 5).then_some(Request::List { kind }), frame)
}
