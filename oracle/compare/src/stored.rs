//! Stored transfers and order files: what the gate replays must be what the Rust here answers.
use crate::case::Case;
use crate::differences::{explain, Listed};
use crate::hex;
use crate::orders::Order;
use crate::ran::{End, Ran};
use crate::transfer::{parse_entry, Transfer};
use std::path::Path;

/// Differences that a row answered by the Rust alone may still meet: its 00 is the transfer's, its N the lent one, and its segment replies
/// are laid out by ETG.1000.6, three bytes shorter than those that the Rust was given.
const OF_EVERY_ROW: [&str; 3] = ["D15", "D18", "D21"];

/// A row of vectors.tsv: tag, entry, replies, number, payload or values, frames, replies judged, next counter.
pub struct Row {
    pub transfer: Transfer,
    by_the_rust_alone: bool,
    number: String,
    result: String,
    sent: Vec<Vec<u8>>,
    judged: usize,
    counter: u8,
}

impl Row {
    pub fn parse(line: &str) -> Result<Row, String> {
        let cells: Vec<&str> = line.split('\t').collect();
        let bad = |what: &str| format!("{what}, in the row `{line}`");
        let [tag, entry, replies, number, result, sent, judged, counter] =
            <[&str; 8]>::try_from(cells).map_err(|_| bad("eight cells are expected"))?;
        let all = |text: &str| text.split(',').map(hex::bytes).collect::<Result<Vec<_>, _>>();
        let mut transfer = parse_entry(entry)?;
        transfer.replies = if replies == "none" { Vec::new() } else { all(replies)? };
        let mut sent = all(sent)?;
        sent.iter_mut().for_each(|frame| frame.resize(16, 0));
        Ok(Row {
            transfer,
            by_the_rust_alone: tag == "R",
            number: number.into(),
            result: result.into(),
            sent,
            judged: judged.parse().map_err(|_| bad("no number of replies"))?,
            counter: counter.parse().map_err(|_| bad("no counter"))?,
        })
    }

    fn is(&self, ran: &Ran) -> bool {
        let (number, result) = match &ran.end {
            End::Done { length } => (0x00, hex::text(&ran.stored[..(*length).min(ran.stored.len())])),
            End::Left => (0x03, "-".into()),
            End::Refused(number) => (*number, "-".into()),
            End::Emergency { code, register, .. } => (0x21, format!("{code:04x} {register:02x}")),
            End::Over { number: 0x22, code, index, sub } => (0x22, format!("{code:08x} {index:04x} {sub:02x}")),
            End::Over { number, .. } => (*number, "-".into()),
            End::Undecoded { .. } | End::Panicked(_) => return false,
        };
        let shown = match ran.end {
            End::Done { length } if length > ran.stored.len() => self.result.starts_with(result.trim_matches('-')),
            _ => self.result == result,
        };
        shown && self.number == format!("{number:02x}") && self.same_traffic(ran)
    }

    fn same_traffic(&self, ran: &Ran) -> bool {
        self.sent == ran.sent && self.judged == ran.judged && self.counter == ran.counter
    }

    /// That the Rust still gives the row's answer, where it gave it, and still parts from it where it did.
    pub fn holds(&self, listed: &Listed) -> Result<(), String> {
        let met = explain(&self.transfer, listed, |ran| self.is(ran))
            .map_err(|theirs| format!("stored: {} {}\nRust: {}", self.number, self.result, theirs.ran))?;
        if self.by_the_rust_alone != met.iter().all(|id| OF_EVERY_ROW.contains(id)) {
            let tag = if self.by_the_rust_alone { "answered by the Rust" } else { "a difference" };
            return Err(format!("the row is tagged as {tag}, and met {met:?}"));
        }
        Ok(())
    }
}

pub fn rows(file: &Path) -> Result<Vec<Row>, String> {
    read(file)?.lines().map(Row::parse).collect()
}

/// The order files of the program `order_cases`, with what is printed for each. They are parted by `=`.
pub fn orders(folder: &Path) -> Result<Vec<Case>, String> {
    let (texts, printed) = (read(&folder.join("stdin"))?, read(&folder.join("stdout"))?);
    let texts: Vec<&str> = texts.split_terminator('=').collect();
    let printed: Vec<&str> = printed.split_terminator("=\n").collect();
    if texts.len() != printed.len() {
        return Err(format!("{} order files, and {} answers", texts.len(), printed.len()));
    }
    let order = |(text, printed): (&&str, &&str)| Order { text: bytes(text), printed: Some(bytes(printed)) };
    Ok(texts.iter().zip(&printed).map(order).map(Case::Order).collect())
}

/// The file, a character for each byte, since order files hold any bytes.
fn read(file: &Path) -> Result<String, String> {
    let bytes = std::fs::read(file).map_err(|error| format!("{}: {error}", file.display()))?;
    Ok(bytes.into_iter().map(char::from).collect())
}

fn bytes(text: &str) -> Vec<u8> {
    text.chars().map(|c| c as u8).collect()
}
