//! Reads of a finished payload. Bytes that don't hold what is asked for are [`Refusal::Undecodable`].
//!
//! ```
//! use coe_desk::reads;
//!
//! assert_eq!(reads::i16(&[0x00, 0x80])?, -32_768);
//! assert!(reads::u32(&[1, 2, 3]).is_err());
//! assert_eq!(reads::object_list(&[0x00, 0x10, 0x18, 0x10])?.collect::<Vec<_>>(), [0x1000, 0x1018]);
//! # Ok::<(), coe_desk::Refusal>(())
//! ```
use crate::ffi;
use crate::Refusal;

/// The values, which differ in type and function alone. The archive hands each back in 32 bits, and it is within its own type.
macro_rules! values {
    ($($(#[$doc:meta])* $name:ident = $read:ident;)*) => {
        $($(#[$doc])*
        ///
        /// # Errors
        /// [`Refusal::Undecodable`] where the payload is shorter.
        pub fn $name(payload: &[u8]) -> Result<$name, Refusal> {
            let read = ffi::$read(payload);
            found(read.number)?;
            Ok(read.value as $name)
        })*
    };
}

values! {
    /// The first byte.
    u8 = read_u8;
    /// The first two bytes, low byte first.
    u16 = read_u16;
    /// The first four bytes, low byte first.
    u32 = read_u32;
    /// The first byte, in two's complement.
    i8 = read_i8;
    /// The first two bytes, low byte first, in two's complement.
    i16 = read_i16;
    /// The first four bytes, low byte first, in two's complement.
    i32 = read_i32;
}

/// The indices of an object list.
///
/// # Errors
/// [`Refusal::Undecodable`] where the payload's length is odd.
pub fn object_list(payload: &[u8]) -> Result<ObjectList<'_>, Refusal> {
    if !payload.is_empty() {
        found(ffi::list_item(payload, 0).number)?;
    }
    Ok(ObjectList { payload, at: 0 })
}

/// The indices of an object list, in the drive's order: see [`object_list`].
#[derive(Debug, Clone)]
pub struct ObjectList<'a> {
    payload: &'a [u8],
    at: usize,
}

impl Iterator for ObjectList<'_> {
    type Item = u16;

    fn next(&mut self) -> Option<u16> {
        let item = ffi::list_item(self.payload, self.at);
        self.at = item.next;
        found(item.number).ok().map(|()| item.index)
    }
}

/// How many objects each list has.
#[derive(Debug, Clone, Copy, PartialEq, Eq)]
pub struct Quantities {
    /// Of [`ListKind::All`](crate::ListKind::All).
    pub all: u16,
    /// Of [`ListKind::RxPdoMappable`](crate::ListKind::RxPdoMappable).
    pub rx_pdo_mappable: u16,
    /// Of [`ListKind::TxPdoMappable`](crate::ListKind::TxPdoMappable).
    pub tx_pdo_mappable: u16,
    /// Of [`ListKind::StoredForDeviceReplacement`](crate::ListKind::StoredForDeviceReplacement).
    pub stored_for_device_replacement: u16,
    /// Of [`ListKind::StartupParameters`](crate::ListKind::StartupParameters).
    pub startup_parameters: u16,
}

/// The five counts in the first ten bytes.
///
/// # Errors
/// [`Refusal::Undecodable`] where the payload is shorter.
pub fn quantities(payload: &[u8]) -> Result<Quantities, Refusal> {
    let read = ffi::read_quantities(payload);
    found(read.number)?;
    Ok(Quantities {
        all: read.all,
        rx_pdo_mappable: read.rx_pdo_mappable,
        tx_pdo_mappable: read.tx_pdo_mappable,
        stored_for_device_replacement: read.stored_for_device_replacement,
        startup_parameters: read.startup_parameters,
    })
}

fn found(number: u8) -> Result<(), Refusal> {
    match number {
        0x00 => Ok(()),
        number => Err(Refusal::of_number(number)),
    }
}
