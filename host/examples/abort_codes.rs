//! Prints the page docs/ABORT_CODES.md from the crate's table of abort codes: `make abort-codes` writes it.
#[path = "../tests/common/abort_page.rs"]
mod abort_page;

fn main() {
    print!("{}", abort_page::page());
}
