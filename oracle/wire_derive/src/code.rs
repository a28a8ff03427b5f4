//! Writes the implementations.
use crate::tokens::{attributes, skip, skip_visibility, until_comma, word, Attributes, Tokens};

const WIRE: &str = "::ethercrab_wire";

fn bytes_of(bits: usize) -> usize {
    (bits + 7) / 8
}

pub fn of_struct(name: &str, own: &Attributes, mut it: Tokens, write: bool) -> String {
    let (mut at, mut reads, mut writes) = (0, String::new(), String::new());
    while it.peek().is_some() {
        let field = attributes(&mut it);
        skip_visibility(&mut it);
        let field_name = word(&mut it);
        skip(&mut it, ":");
        let field_type = until_comma(&mut it);
        let bits = field.bits();
        assert!(bits > 0, "{name}.{field_name} has no size");
        at += field.bits_before();
        reads += &read_field(&field_name, &field_type, at, bits);
        writes +=
            &format!("{WIRE}::put_bits(buf, {at}, {bits}, {WIRE}::EtherCrabWireWriteSized::pack(&self.{field_name}).as_ref()); ");
        at += bits + field.bits_behind();
    }
    assert_eq!(at, own.bits(), "{name}: its fields and skips do not fill its declared size");
    let len = bytes_of(at);
    let read = format!(
        "let buf = buf.get(0..{len}).ok_or({WIRE}::WireError::ReadBufferTooShort)?; ::core::result::Result::Ok(Self {{ {reads} }})"
    );
    sized(name, len) + &reading(name, &read) + &writing(name, len, &format!("buf.fill(0); {writes}"), write)
}

fn read_field(name: &str, of: &str, at: usize, bits: usize) -> String {
    format!(
        "{name}: {{ let mut part = [0u8; {}]; {WIRE}::get_bits(buf, {at}, {bits}, &mut part); \
         <{of} as {WIRE}::EtherCrabWireRead>::unpack_from_slice(&part)? }}, ",
        bytes_of(bits)
    )
}

pub fn of_enum(name: &str, own: &Attributes, mut it: Tokens, write: bool) -> String {
    let repr = &own.repr;
    let len = match repr.as_str() {
        "u8" => 1,
        "u16" => 2,
        "u32" => 4,
        other => panic!("{name}: repr({other}) is not covered"),
    };
    let (mut cases, mut numbers) = (String::new(), String::new());
    let mut otherwise = format!("_ => ::core::result::Result::Err({WIRE}::WireError::InvalidValue)");
    while it.peek().is_some() {
        let catches_all = attributes(&mut it).wire.contains_key("catch_all");
        let case = word(&mut it);
        if catches_all {
            until_comma(&mut it);
            otherwise = format!("raw => ::core::result::Result::Ok(Self::{case}(raw))");
            numbers += &format!("{name}::{case}(raw) => raw, ");
        } else {
            skip(&mut it, "=");
            let number = until_comma(&mut it);
            cases += &format!("{number} => ::core::result::Result::Ok(Self::{case}), ");
            numbers += &format!("{name}::{case} => {number}, ");
        }
    }
    let read = format!("match <{repr} as {WIRE}::EtherCrabWireRead>::unpack_from_slice(buf)? {{ {cases} {otherwise} }}");
    let number =
        format!("impl From<{name}> for {repr} {{ fn from(value: {name}) -> {repr} {{ match value {{ {numbers} }} }} }} ");
    let packed = format!("buf.copy_from_slice(&<{repr}>::from(*self).to_le_bytes())");
    sized(name, len) + &number + &reading(name, &read) + &writing(name, len, &packed, write)
}

fn sized(name: &str, len: usize) -> String {
    format!(
        "impl {WIRE}::EtherCrabWireSized for {name} {{ const PACKED_LEN: usize = {len}; type Buffer = [u8; {len}]; \
         fn buffer() -> [u8; {len}] {{ [0; {len}] }} }} "
    )
}

fn reading(name: &str, body: &str) -> String {
    format!(
        "impl {WIRE}::EtherCrabWireRead for {name} {{ \
         fn unpack_from_slice(buf: &[u8]) -> ::core::result::Result<Self, {WIRE}::WireError> {{ {body} }} }} "
    )
}

fn writing(name: &str, len: usize, body: &str, wanted: bool) -> String {
    if !wanted {
        return String::new();
    }
    format!(
        "impl {WIRE}::EtherCrabWireWrite for {name} {{ fn packed_len(&self) -> usize {{ {len} }} \
         fn pack_exact(&self, buf: &mut [u8]) {{ {body} }} }} "
    )
}
