//! Reads what stands before and in a struct or enum.
use proc_macro::{token_stream, Delimiter, TokenStream, TokenTree};
use std::collections::HashMap;
use std::iter::Peekable;

pub type Tokens = Peekable<token_stream::IntoIter>;

const WIRE_KEYS: [&str; 7] = ["bits", "bytes", "pre_skip", "post_skip", "pre_skip_bytes", "post_skip_bytes", "catch_all"];

#[derive(Default)]
pub struct Attributes {
    pub wire: HashMap<String, String>,
    pub repr: String,
}

impl Attributes {
    fn number(&self, key: &str) -> usize {
        self.wire.get(key).map_or(0, |value| value.parse().expect("a number"))
    }

    pub fn bits(&self) -> usize {
        self.number("bits") + 8 * self.number("bytes")
    }

    pub fn bits_before(&self) -> usize {
        self.number("pre_skip") + 8 * self.number("pre_skip_bytes")
    }

    pub fn bits_behind(&self) -> usize {
        self.number("post_skip") + 8 * self.number("post_skip_bytes")
    }

    fn add_wire(&mut self, arguments: TokenStream) {
        for part in arguments.to_string().split(',') {
            let (key, value) = part.split_once('=').unwrap_or((part, ""));
            let key = key.trim();
            assert!(WIRE_KEYS.contains(&key), "#[wire({key})] is not known here");
            self.wire.insert(key.into(), value.trim().into());
        }
    }
}

/// The attributes that stand next.
pub fn attributes(it: &mut Tokens) -> Attributes {
    let mut out = Attributes::default();
    while matches!(it.peek(), Some(TokenTree::Punct(p)) if p.as_char() == '#') {
        it.next();
        let mut inner = match it.next() {
            Some(TokenTree::Group(group)) => group.stream().into_iter(),
            other => panic!("an attribute is expected, and not {other:?}"),
        };
        let name = inner.next().map(|token| token.to_string());
        match (name.as_deref(), inner.next()) {
            (Some("repr"), Some(TokenTree::Group(arguments))) => out.repr = arguments.stream().to_string(),
            (Some("wire"), Some(TokenTree::Group(arguments))) => out.add_wire(arguments.stream()),
            _ => {}
        }
    }
    out
}

pub fn skip_visibility(it: &mut Tokens) {
    if matches!(it.peek(), Some(TokenTree::Ident(word)) if word.to_string() == "pub") {
        it.next();
        if matches!(it.peek(), Some(TokenTree::Group(group)) if group.delimiter() == Delimiter::Parenthesis) {
            it.next();
        }
    }
}

pub fn word(it: &mut Tokens) -> String {
    it.next().expect("a word").to_string()
}

pub fn skip(it: &mut Tokens, sign: &str) {
    assert_eq!(word(it), sign);
}

/// The tokens up to a comma outside `<>`, which is taken too.
pub fn until_comma(it: &mut Tokens) -> String {
    let (mut out, mut depth) = (String::new(), 0);
    for token in it {
        match token.to_string().as_str() {
            "<" => depth += 1,
            ">" => depth -= 1,
            "," if depth == 0 => break,
            _ => {}
        }
        out += &format!("{token} ");
    }
    out
}
