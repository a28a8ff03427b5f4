//! The classes of emergency codes against CiA 301's table, for each of the 256 high bytes.
use coe_desk::{emergency_class, Refusal};

/// CiA 301, emergency error code classes: the high byte and its class.
const TABLE: &str = "\
00 error reset or no error
10 generic error
20 current
21 current on the device's input side
22 current inside the device
23 current on the device's output side
30 voltage
31 mains voltage
32 voltage inside the device
33 output voltage
40 temperature
41 ambient temperature
42 device temperature
50 device hardware
60 device software
61 internal software
62 user software
63 data set
70 additional modules
80 monitoring
81 communication
82 protocol error
90 external error
f0 additional functions
ff device specific";

fn in_the_table(high: u8) -> Option<&'static str> {
    TABLE.lines().find_map(|line| line.strip_prefix(&format!("{high:02x} ")))
}

#[test]
fn each_high_byte_has_the_tables_class_or_none() {
    for high in 0..=255 {
        for low in [0x00, 0x10, 0x80, 0xff] {
            assert_eq!(emergency_class(u16::from_be_bytes([high, low])), in_the_table(high), "{high:02x}{low:02x}");
        }
    }
    assert_eq!((0..=255).filter(|&high| in_the_table(high).is_some()).count(), 25);
}

#[test]
fn an_emergency_says_its_class_where_there_is_one() {
    for high in 0..=255 {
        let code = u16::from_be_bytes([high, 0x0c]);
        let emergency = Refusal::Emergency { code, register: 0x81, data: [0xff, 0x10, 0, 9, 0xa0] };
        let class = in_the_table(high).map_or(String::new(), |class| format!(" ({class})"));
        let said = format!("the drive sent emergency 0x{high:02x}0c{class}, register 0x81, data ff 10 00 09 a0");
        assert_eq!(emergency.to_string(), said);
    }
}
