//! Bytes as lower-case hexadecimal, `-` for none.

pub fn text(bytes: &[u8]) -> String {
    if bytes.is_empty() {
        return "-".into();
    }
    digits(bytes)
}

pub fn digits(bytes: &[u8]) -> String {
    bytes.iter().map(|byte| format!("{byte:02x}")).collect()
}

pub fn bytes(text: &str) -> Result<Vec<u8>, String> {
    if text == "-" {
        return Ok(Vec::new());
    }
    of_digits(text.as_bytes()).ok_or_else(|| format!("{text} is no even number of lower-case hexadecimal digits"))
}

/// The bytes of an order file's line.
pub fn of_digits(text: &[u8]) -> Option<Vec<u8>> {
    if text.len() % 2 != 0 {
        return None;
    }
    text.chunks(2).map(|pair| Some(16 * digit(pair[0])? + digit(pair[1])?)).collect()
}

fn digit(c: u8) -> Option<u8> {
    match c {
        b'0'..=b'9' => Some(c - b'0'),
        b'a'..=b'f' => Some(c - b'a' + 10),
        _ => None,
    }
}
