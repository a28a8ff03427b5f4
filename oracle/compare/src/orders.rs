//! Order files, through the order program. The rules of its lines are document 01's alone; the transfer in them is the Rust's too, and
//! what is printed of it is compared. The text of one is as `order 05\n0800\n`, with `\n`, `\\` and `\xff` for what is no plain sign.
use crate::case::{Setting, Verdict};
use crate::differences::explain;
use crate::hex;
use crate::ran::{End, Ran};
use crate::transfer::{Kind, Transfer};
use std::fmt;
use std::io::Write;
use std::process::{Command, Stdio};

const ROOM: usize = 4096;
const LONGEST_LINE: usize = 1486;

#[derive(Debug, Clone)]
pub struct Order {
    pub text: Vec<u8>,
    /// What the program printed, where it is on file and need not be run.
    pub printed: Option<Vec<u8>>,
}

impl Order {
    pub fn new(text: Vec<u8>) -> Order {
        Order { text, printed: None }
    }

    pub fn compare(&self, setting: &Setting) -> Verdict {
        let here = match &self.printed {
            Some(printed) => printed.clone(),
            None => run(&setting.order_program, &self.text)?,
        };
        let shown = |text: &[u8]| Order::new(text.to_vec()).to_string();
        let entered = match Entered::of(&self.text) {
            Some(entered) => entered,
            None if here == b"ff\n" => return Ok(Vec::new()),
            None => return Err(format!("here: {}\na bad entry: ff", shown(&here))),
        };
        explain(&entered.transfer, &setting.listed, |ran| entered.prints(ran) == here).map_err(|theirs| {
            format!("here: {}\nRust: {}\n      {}", shown(&here), shown(&entered.prints(&theirs.ran)), theirs.ran)
        })
    }

    pub fn parse(text: &str) -> Result<Order, String> {
        let mut out = Vec::new();
        let mut rest = text.as_bytes();
        while let Some((&first, behind)) = rest.split_first() {
            let (byte, taken) = match (first, behind) {
                (b'\\', [b'n', ..]) => (b'\n', 1),
                (b'\\', [b'\\', ..]) => (b'\\', 1),
                (b'\\', [b'x', high, low, ..]) => {
                    (hex::of_digits(&[*high, *low]).ok_or("`\\x` is followed by two digits")?[0], 3)
                }
                (b'\\', _) => return Err(format!("`{text}`: `\\n`, `\\\\` or `\\xff` is expected")),
                _ => (first, 0),
            };
            out.push(byte);
            rest = &behind[taken..];
        }
        Ok(Order::new(out))
    }
}

impl fmt::Display for Order {
    fn fmt(&self, f: &mut fmt::Formatter<'_>) -> fmt::Result {
        self.text.iter().try_for_each(|&byte| match byte {
            b'\n' => write!(f, "\\n"),
            b'\\' => write!(f, "\\\\"),
            b'!'..=b'~' => write!(f, "{}", char::from(byte)),
            _ => write!(f, "\\x{byte:02x}"),
        })
    }
}

/// A file whose entry is good.
struct Entered {
    /// With the replies before the first bad line.
    transfer: Transfer,
    bad_line: bool,
}

impl Entered {
    fn of(text: &[u8]) -> Option<Entered> {
        let mut lines: Vec<&[u8]> = text.split(|&byte| byte == b'\n').collect();
        if lines.last().map_or(false, |line| line.is_empty()) {
            lines.pop();
        }
        let (entry, rest) = lines.split_first()?;
        let mut transfer = transfer_of(&frame(entry)?)?;
        transfer.replies = rest.iter().map_while(|line| frame(line)).collect();
        let bad_line = transfer.replies.len() < rest.len();
        Some(Entered { transfer, bad_line })
    }

    fn prints(&self, ran: &Ran) -> Vec<u8> {
        let mut out: String = ran.sent.iter().map(|frame| hex::digits(frame) + "\n").collect();
        out += &match &ran.end {
            End::Left if self.bad_line => "ff".into(),
            End::Left => "03".into(),
            End::Done { length } => format!("00{}", hex::digits(&ran.stored[..(*length).min(ROOM)])),
            End::Refused(number) | End::Over { number, .. } => format!("{number:02x}"),
            End::Emergency { .. } => "21".into(),
            End::Undecoded { .. } | End::Panicked(_) => "no number".into(),
        };
        (out + "\n").into_bytes()
    }
}

fn frame(line: &[u8]) -> Option<Vec<u8>> {
    hex::of_digits(line).filter(|frame| frame.len() <= LONGEST_LINE)
}

fn transfer_of(entry: &[u8]) -> Option<Transfer> {
    let index = |low: u8, high: u8| u16::from_le_bytes([low, high]);
    match *entry {
        [1, low, high, sub] => Some(Transfer::new(Kind::Read, index(low, high), Some(sub), ROOM)),
        [2, low, high] => Some(Transfer::new(Kind::Read, index(low, high), None, ROOM)),
        [3, low, high, sub, ref data @ ..] if (1..=4).contains(&data.len()) => {
            Some(Transfer { data: data.to_vec(), ..Transfer::new(Kind::Write, index(low, high), Some(sub), ROOM) })
        }
        [4, kind @ 1..=5] => Some(Transfer::new(Kind::List, kind.into(), Some(0), ROOM)),
        [5] => Some(Transfer::new(Kind::Quantities, 0, Some(0), ROOM)),
        _ => None,
    }
}

fn run(program: &[String], text: &[u8]) -> Result<Vec<u8>, String> {
    let (name, words) = program.split_first().ok_or("no order program was named: --order-program")?;
    let failed = |error: std::io::Error| format!("{name} did not run: {error}");
    let mut child = Command::new(name).args(words).stdin(Stdio::piped()).stdout(Stdio::piped()).spawn().map_err(failed)?;
    let mut input = child.stdin.take().ok_or("no pipe")?;
    let text = text.to_vec();
    // The program may end before it has read everything, and then a write fails: that is no fault.
    let feeding = std::thread::spawn(move || drop(input.write_all(&text)));
    let output = child.wait_with_output().map_err(failed)?;
    drop(feeding.join());
    Ok(output.stdout)
}
