//! The page docs/ABORT_CODES.md: examples/abort_codes.rs prints it, and a test holds the stored page against it.
use coe_desk::AbortCode;

const HEAD: &str = "\
# The abort codes

A drive that aborts a transfer says why with a number of four bytes. Thirty are listed, here ascending, with the names of ethercrab's
`CoeAbortCode` and with ethercrab's words. Any other number comes as `Unknown`, and keeps its number; so do five codes that CiA 301 has and
this list has not, `0x05040002` to `0x05040004`, `0x060a0023` and `0x08000024`.

To check the list, hold it row by row against ETG.1000.6, Table 41, \"SDO Abort Codes\": the standard's four bytes stand here as one number.
The proved list is in `crates/mailbox/src/abort_code.rt`; `crates/promises/specs/Names.antt` has the thirty pairs a second time, flat, and
it is proved that both say the same. `host/src/abort.rs` is the Rust crate's table, with the texts. `make abort-codes` writes this page from
it. `host/tests/abort_codes.rs` fails where the page is not what that command writes, and where the table parts from the proved list, from
ethercrab's file in `oracle/published` or from `tools/cases/abort-codes.txt`.

| Number | Name | Text |
|---|---|---|
";

pub fn page() -> String {
    let row = |code: AbortCode| format!("| `{:#010x}` | `{code:?}` | {} |\n", u32::from(code), escaped(code.text().trim()));
    HEAD.to_string() + &AbortCode::LISTED.map(row).concat()
}

/// With a backslash before each character that Markdown would take for its own in a table.
pub fn escaped(text: &str) -> String {
    text.chars().flat_map(|character| "\\`*_[<|".contains(character).then_some('\\').into_iter().chain([character])).collect()
}
