//! Stand-in for ethercrab_wire's derive macros, for the shapes in ethercrab's src/mailbox and sync_manager_channel.rs.
//!
//! A struct has `#[wire(bytes = n)]` or `#[wire(bits = n)]`, and so has each field, with `pre_skip` and `post_skip` (bits),
//! `pre_skip_bytes` and `post_skip_bytes`. Fields lie one after another, bit 0 of byte 0 first. They must fill the struct, or the build
//! fails. An enum has `#[repr(uN)]`, a number for each case, and at most one `#[wire(catch_all)] Name(uN)`.
mod code;
mod tokens;

use proc_macro::{TokenStream, TokenTree};

#[proc_macro_derive(EtherCrabWireRead, attributes(wire))]
pub fn read(input: TokenStream) -> TokenStream {
    derive(input, false)
}

#[proc_macro_derive(EtherCrabWireReadWrite, attributes(wire))]
pub fn read_write(input: TokenStream) -> TokenStream {
    derive(input, true)
}

fn derive(input: TokenStream, write: bool) -> TokenStream {
    let mut it = input.into_iter().peekable();
    let attributes = tokens::attributes(&mut it);
    tokens::skip_visibility(&mut it);
    let what = tokens::word(&mut it);
    let name = tokens::word(&mut it);
    let body = match it.next() {
        Some(TokenTree::Group(body)) => body.stream().into_iter().peekable(),
        _ => panic!("{name}: a name and then a body is expected; generics are not covered"),
    };
    let code = match what.as_str() {
        "struct" => code::of_struct(&name, &attributes, body, write),
        "enum" => code::of_enum(&name, &attributes, body, write),
        other => panic!("{name}: a struct or an enum is expected, and not {other}"),
    };
    code.parse().expect("the derived code is Rust")
}
