use core::fmt;

/// Which part of an object is meant.
#[derive(Debug, Clone, Copy, PartialEq, Eq, Hash)]
pub enum SubIndex {
    /// The whole object in one transfer ("complete access"). The request names sub-index 1.
    Complete,
    /// One entry of the object.
    Index(u8),
}

impl SubIndex {
    /// The sub-index that requests and replies name.
    pub const fn number(self) -> u8 {
        match self {
            SubIndex::Complete => 1,
            SubIndex::Index(number) => number,
        }
    }

    pub(crate) const fn is_complete(self) -> bool {
        matches!(self, SubIndex::Complete)
    }
}

impl From<u8> for SubIndex {
    fn from(number: u8) -> SubIndex {
        SubIndex::Index(number)
    }
}

impl fmt::Display for SubIndex {
    fn fmt(&self, f: &mut fmt::Formatter<'_>) -> fmt::Result {
        match self {
            SubIndex::Complete => f.write_str("complete"),
            SubIndex::Index(number) => write!(f, "{number:02x}"),
        }
    }
}

/// Which objects a list names: ETG.1000.6, 5.6.3.3.1.
#[derive(Debug, Clone, Copy, PartialEq, Eq, Hash)]
#[repr(u8)]
pub enum ListKind {
    /// All objects of the object dictionary.
    All = 1,
    /// Objects which are mappable in an RxPDO.
    RxPdoMappable = 2,
    /// Objects which are mappable in a TxPDO.
    TxPdoMappable = 3,
    /// Objects which have to be stored for a device replacement.
    StoredForDeviceReplacement = 4,
    /// Objects which can be used as startup parameter.
    StartupParameters = 5,
}

/// What a task asks of the drive.
///
/// ```
/// use coe_desk::{ListKind, Order, SubIndex};
///
/// let serial_number = Order::upload(0x1018, 4);
/// let identity = Order::upload(0x1018, SubIndex::Complete);
/// let mode = Order::download(0x6060, 0, &[8]);
/// let objects = Order::ObjectList(ListKind::All);
/// assert_eq!(serial_number.to_string(), "upload of 0x1018:04");
/// assert_eq!(identity.to_string(), "upload of 0x1018:complete");
/// # let _ = (mode, objects);
/// ```
#[derive(Debug, Clone, Copy, PartialEq, Eq)]
pub enum Order<'a> {
    /// Read an object.
    Upload {
        /// The object's index.
        index: u16,
        /// Which part of it.
        sub_index: SubIndex,
    },
    /// Write an object.
    Download {
        /// The object's index.
        index: u16,
        /// Which part of it.
        sub_index: SubIndex,
        /// One to four bytes. The desk refuses other lengths with [`Refusal::BadOrder`](crate::Refusal::BadOrder).
        data: &'a [u8],
    },
    /// Read the indices of the drive's objects.
    ObjectList(ListKind),
    /// Read how many objects each list has.
    Quantities,
}

impl<'a> Order<'a> {
    /// An order to read an object. A number stands for a sub-index: `Order::upload(0x1018, 4)`.
    pub fn upload(index: u16, sub_index: impl Into<SubIndex>) -> Order<'static> {
        Order::Upload { index, sub_index: sub_index.into() }
    }

    /// An order to write an object.
    pub fn download(index: u16, sub_index: impl Into<SubIndex>, data: &'a [u8]) -> Order<'a> {
        Order::Download { index, sub_index: sub_index.into(), data }
    }

    /// Kind, index, sub-index and data, as `coe_desk_enter` takes them.
    pub(crate) fn numbers(self) -> (u8, u16, u8, &'a [u8]) {
        match self {
            Order::Upload { index, sub_index } => (1 + u8::from(sub_index.is_complete()), index, sub_index.number(), &[]),
            Order::Download { index, sub_index, data } => {
                (if sub_index.is_complete() { 6 } else { 3 }, index, sub_index.number(), data)
            }
            Order::ObjectList(kind) => (4, kind as u16, 0, &[]),
            Order::Quantities => (5, 0, 0, &[]),
        }
    }
}

impl fmt::Display for Order<'_> {
    fn fmt(&self, f: &mut fmt::Formatter<'_>) -> fmt::Result {
        match self {
            Order::Upload { index, sub_index } => write!(f, "upload of {index:#06x}:{sub_index}"),
            Order::Download { index, sub_index, data } => {
                write!(f, "download of {} bytes to {index:#06x}:{sub_index}", data.len())
            }
            Order::ObjectList(kind) => write!(f, "object list {kind:?}"),
            Order::Quantities => f.write_str("object quantities"),
        }
    }
}
