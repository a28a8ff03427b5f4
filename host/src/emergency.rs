use core::fmt;

/// The class of an emergency's error code, by CiA 301: what its high byte stands for, where it is one of the table's.
///
/// The code within its class is the drive's own or its profile's: the drive's manual has it.
///
/// ```
/// use coe_desk::emergency_class;
///
/// assert_eq!(emergency_class(0x4210), Some("device temperature"));
/// assert_eq!(emergency_class(0xff01), Some("device specific"));
/// assert_eq!(emergency_class(0xb000), None);
/// ```
pub const fn emergency_class(code: u16) -> Option<&'static str> {
    Some(match code >> 8 {
        0x00 => "error reset or no error",
        0x10 => "generic error",
        0x20 => "current",
        0x21 => "current on the device's input side",
        0x22 => "current inside the device",
        0x23 => "current on the device's output side",
        0x30 => "voltage",
        0x31 => "mains voltage",
        0x32 => "voltage inside the device",
        0x33 => "output voltage",
        0x40 => "temperature",
        0x41 => "ambient temperature",
        0x42 => "device temperature",
        0x50 => "device hardware",
        0x60 => "device software",
        0x61 => "internal software",
        0x62 => "user software",
        0x63 => "data set",
        0x70 => "additional modules",
        0x80 => "monitoring",
        0x81 => "communication",
        0x82 => "protocol error",
        0x90 => "external error",
        0xf0 => "additional functions",
        0xff => "device specific",
        _ => return None,
    })
}

/// An emergency in words: the code with its class, the register and the five bytes.
pub(crate) fn show(f: &mut fmt::Formatter<'_>, code: u16, register: u8, data: [u8; 5]) -> fmt::Result {
    write!(f, "the drive sent emergency {code:#06x}")?;
    if let Some(class) = emergency_class(code) {
        write!(f, " ({class})")?;
    }
    write!(f, ", register {register:#04x}, data")?;
    data.iter().try_for_each(|byte| write!(f, " {byte:02x}"))
}
