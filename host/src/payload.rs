use crate::reads::{self, ObjectList, Quantities};
use crate::Refusal;

/// What a finished transfer brought: its bytes in the lent buffer, and the reads of them.
///
/// ```
/// use coe_desk::Payload;
///
/// let payload = Payload::new(&[0x34, 0x12, 0, 0], 2);
/// assert_eq!(payload.bytes(), [0x34, 0x12]);
/// assert_eq!(payload.u16(), Ok(0x1234));
/// assert!(payload.u32().is_err());
/// ```
#[derive(Debug, Clone, Copy, PartialEq, Eq)]
pub struct Payload<'a> {
    bytes: &'a [u8],
    length: usize,
}

impl<'a> Payload<'a> {
    /// The payload of the given length in the data buffer that was lent: the `length` of
    /// [`Answer::Done`](crate::Answer::Done).
    pub fn new(data: &'a [u8], length: usize) -> Payload<'a> {
        Payload { bytes: &data[..length.min(data.len())], length }
    }

    /// The bytes, as many of them as the buffer has room for.
    pub fn bytes(self) -> &'a [u8] {
        self.bytes
    }

    /// How many bytes the drive sent. A short object may be longer than the buffer that was lent for it; the others are refused.
    pub fn length(self) -> usize {
        self.length
    }

    /// Whether the buffer had no room for some of the bytes.
    pub fn is_cut(self) -> bool {
        self.bytes.len() < self.length
    }

    /// The indices of an object list.
    ///
    /// # Errors
    /// [`Refusal::Undecodable`] where the length is odd.
    pub fn object_list(self) -> Result<ObjectList<'a>, Refusal> {
        reads::object_list(self.bytes)
    }

    /// How many objects each list has.
    ///
    /// # Errors
    /// [`Refusal::Undecodable`] where there are fewer than ten bytes.
    pub fn quantities(self) -> Result<Quantities, Refusal> {
        reads::quantities(self.bytes)
    }
}

macro_rules! values {
    ($($name:ident: $what:literal;)*) => {
        impl Payload<'_> {
            $(
            #[doc = $what]
            ///
            /// # Errors
            /// [`Refusal::Undecodable`] where there are fewer bytes.
            pub fn $name(self) -> Result<$name, Refusal> {
                reads::$name(self.bytes)
            })*
        }
    };
}

values! {
    u8: "The first byte.";
    u16: "The first two bytes, low byte first.";
    u32: "The first four bytes, low byte first.";
    i8: "The first byte, in two's complement.";
    i16: "The first two bytes, low byte first, in two's complement.";
    i32: "The first four bytes, low byte first, in two's complement.";
}
