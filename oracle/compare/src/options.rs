//! The command's words.
use std::path::PathBuf;

pub const USAGE: &str = "\
compare: feeds the published Rust and the exported functions the same inputs, and fails where they part on no listed difference

    --differences FILE      the list: docs/DIFFERENCES.md
    --cases N               how many cases, all generators together (200000)
    --orders N              how many order files besides (100)
    --seed N                another seed, other cases (1)
    --order-program WORDS   what starts the order program, parted by blanks
    --vectors FILE          the stored transfers: tools/cases/vectors.tsv
    --stored-orders FOLDER  the stored order files: stdin and stdout of crates/order_cases
    --generators-only       the generators alone: no listed inputs, nothing stored, no order files
    --replay                the case on standard input, as a failed run prints it, and nothing else";

#[derive(Debug)]
pub struct Options {
    pub differences: PathBuf,
    pub cases: u64,
    pub orders: u64,
    pub seed: u64,
    pub order_program: Vec<String>,
    pub vectors: Option<PathBuf>,
    pub stored_orders: Option<PathBuf>,
    pub generators_only: bool,
    pub replay: bool,
}

impl Options {
    pub fn parse(mut words: impl Iterator<Item = String>) -> Result<Options, String> {
        let mut options = Options {
            differences: PathBuf::from("docs/DIFFERENCES.md"),
            cases: 200_000,
            orders: 100,
            seed: 1,
            order_program: Vec::new(),
            vectors: None,
            stored_orders: None,
            generators_only: false,
            replay: false,
        };
        while let Some(word) = words.next() {
            let mut value = || words.next().ok_or_else(|| format!("{word} needs a word behind it"));
            let number = |text: String| text.parse().map_err(|_| format!("{word} needs a number, and not {text}"));
            match word.as_str() {
                "--differences" => options.differences = value()?.into(),
                "--cases" => options.cases = number(value()?)?,
                "--orders" => options.orders = number(value()?)?,
                "--seed" => options.seed = number(value()?)?,
                "--order-program" => options.order_program = value()?.split_whitespace().map(String::from).collect(),
                "--vectors" => options.vectors = Some(value()?.into()),
                "--stored-orders" => options.stored_orders = Some(value()?.into()),
                "--generators-only" => options.generators_only = true,
                "--replay" => options.replay = true,
                _ => return Err(format!("{word} is no option")),
            }
        }
        Ok(options)
    }
}
