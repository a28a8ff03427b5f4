//! The project's other lists of abort codes, each read from its file, a row as `0x05030000 ToggleBit`.

/// A file of the repository: its path, and its text.
pub struct File {
    pub path: &'static str,
    pub text: &'static str,
}

macro_rules! file {
    ($path:literal) => {
        File { path: $path, text: include_str!(concat!(env!("CARGO_MANIFEST_DIR"), "/../", $path)) }
    };
}

pub const PROVED: File = file!("crates/mailbox/src/abort_code.rt");
pub const PUBLISHED: File = file!("oracle/published/src/mailbox/coe/abort_code.rs");
pub const CASES: File = file!("tools/cases/abort-codes.txt");
pub const PAGE: File = file!("docs/ABORT_CODES.md");

pub fn row(number: u32, name: &str) -> String {
    format!("{number:#010x} {name}")
}

fn read(digits: &str, name: &str) -> Option<String> {
    u32::from_str_radix(&digits.replace('_', ""), 16).ok().map(|number| row(number, name))
}

/// `Row(0x0503_0000, CoeAbortCode::ToggleBit),`
pub fn proved(line: &str) -> Option<String> {
    let (digits, name) = line.trim().strip_prefix("Row(0x")?.strip_suffix("),")?.split_once(", CoeAbortCode::")?;
    read(digits, name)
}

/// `ToggleBit = 0x0503_0000,`
pub fn published(line: &str) -> Option<String> {
    let (name, digits) = line.trim().strip_suffix(',')?.split_once(" = 0x")?;
    read(digits, name)
}

/// `05030000 ToggleBit`
pub fn in_cases(line: &str) -> Option<String> {
    let (digits, name) = line.split_once(' ')?;
    read(digits, name)
}

/// `Self::ToggleBit => f.write_str("Toggle bit not changed"),`: what the published Rust prints behind the number.
pub fn printed(line: &str) -> Option<String> {
    let (name, text) = line.trim().strip_prefix("Self::")?.strip_suffix("\"),")?.split_once(" => f.write_str(\"")?;
    Some(format!("{name}: {text}"))
}
