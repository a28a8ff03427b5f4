use core::fmt;

/// The list once, ascending by number: the enum, its list, its numbers and its texts are made from it.
macro_rules! abort_codes {
    ($($number:literal, $name:ident, $text:literal;)*) => {
        /// Why a drive aborted a transfer: ETG.1000.6, Table 41, by the names of ethercrab's `CoeAbortCode`.
        ///
        /// ```
        /// use coe_desk::AbortCode;
        ///
        /// assert_eq!(AbortCode::from(0x0609_0011), AbortCode::SubIndexNotFound);
        /// assert_eq!(AbortCode::SubIndexNotFound.to_string(), "0x06090011: Subindex does not exist");
        /// assert_eq!(u32::from(AbortCode::Unknown(7)), 7);
        /// ```
        #[derive(Debug, Clone, Copy, PartialEq, Eq, Hash)]
        pub enum AbortCode {
            $(#[doc = $text] $name,)*
            /// A number that is not listed, kept as it came.
            Unknown(u32),
        }

        impl AbortCode {
            /// The listed codes, all but `Unknown`, ascending by number: for a host that shows them, as a panel's list of texts.
            ///
            /// ```
            /// use coe_desk::AbortCode;
            ///
            /// let texts: Vec<String> =
            ///     AbortCode::LISTED.iter().map(|&code| format!("{:08x}={}", u32::from(code), code.text().trim())).collect();
            /// assert_eq!(texts.len(), 30);
            /// assert_eq!(texts[0], "05030000=Toggle bit not changed");
            /// ```
            pub const LISTED: [AbortCode; 30] = [$(AbortCode::$name,)*];

            /// What the code means, in ethercrab's words. Those of `InvalidState` begin with a blank, as there.
            ///
            /// ```
            /// use coe_desk::AbortCode;
            ///
            /// assert_eq!(AbortCode::ReadOnlyWrite.text(), "Attempt to write to a read only object");
            /// assert_eq!(AbortCode::Unknown(7).text(), "Unknown code");
            /// ```
            pub const fn text(self) -> &'static str {
                match self {
                    $(AbortCode::$name => $text,)*
                    AbortCode::Unknown(_) => "Unknown code",
                }
            }
        }

        impl From<AbortCode> for u32 {
            fn from(code: AbortCode) -> u32 {
                match code {
                    $(AbortCode::$name => $number,)*
                    AbortCode::Unknown(number) => number,
                }
            }
        }
    };
}

abort_codes! {
    0x0503_0000, ToggleBit, "Toggle bit not changed";
    0x0504_0000, SdoTimeout, "SDO protocol timeout";
    0x0504_0001, InvalidCommand, "Client/Server command specifier not valid or unknown";
    0x0504_0005, OutOfMemory, "Out of memory";
    0x0601_0000, UnsupportedAccess, "Unsupported access to an object";
    0x0601_0001, WriteOnlyRead, "Attempt to read to a write only object";
    0x0601_0002, ReadOnlyWrite, "Attempt to write to a read only object";
    0x0601_0003, IndexOnly, "Subindex cannot be written, SI0 must be 0 for write access";
    0x0601_0004, NoCompleteAccess, "SDO Complete access not supported for objects of variable length such as ENUM object types";
    0x0601_0005, ObjectTooLarge, "Object length exceeds mailbox size";
    0x0601_0006, DownloadBlocked, "Object mapped to RxPDO, SDO Download blocked";
    0x0602_0000, NotFound, "The object does not exist in the object directory";
    0x0604_0041, PdoMappingFailed, "The object can not be mapped into the PDO";
    0x0604_0042, PdoTooSmall, "The number and length of the objects to be mapped would exceed the PDO length";
    0x0604_0043, Incompatible, "General parameter incompatibility reason";
    0x0604_0047, Internal, "General internal incompatibility in the device";
    0x0606_0000, HardwareFailure, "Access failed due to a hardware error";
    0x0607_0010, DataLengthMismatch, "Data type does not match, length of service parameter does not match";
    0x0607_0012, DataTooLong, "Data type does not match, length of service parameter too high";
    0x0607_0013, DataTooShort, "Data type does not match, length of service parameter too low";
    0x0609_0011, SubIndexNotFound, "Subindex does not exist";
    0x0609_0030, ValueOutOfRange, "Value range of parameter exceeded (only for write access)";
    0x0609_0031, ValueTooLarge, "Value of parameter written too high";
    0x0609_0032, ValueTooSmall, "Value of parameter written too low";
    0x0609_0036, MaxMin, "Maximum value is less than minimum value";
    0x0800_0000, General, "General error";
    0x0800_0020, TransferFailed, "Data cannot be transferred or stored to the application";
    0x0800_0021, TransferFailedLocal, "Data cannot be transferred or stored to the application because of local control";
    // With a blank before it, as ethercrab prints it.
    0x0800_0022, InvalidState, " Data cannot be transferred or stored to the application because of the present device state";
    0x0800_0023, NoObjectDictionary, "Object dictionary dynamic generation fails or no object dictionary is present";
}

/// The listed code of this number, or `Unknown` with it. The list is in order, so that it is searched by halving.
impl From<u32> for AbortCode {
    fn from(number: u32) -> AbortCode {
        match AbortCode::LISTED.binary_search_by_key(&number, |&code| code.into()) {
            Ok(place) => AbortCode::LISTED[place],
            Err(_) => AbortCode::Unknown(number),
        }
    }
}

/// The number in hexadecimal, then what it means: ethercrab's words.
impl fmt::Display for AbortCode {
    fn fmt(&self, f: &mut fmt::Formatter<'_>) -> fmt::Result {
        write!(f, "{:#010x}: {}", u32::from(*self), self.text())
    }
}
