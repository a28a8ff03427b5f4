//! One input of both sides, its text, and the comparison of what they make of it.
use crate::differences::{explain, explain_frame, Listed};
use crate::frames::Frame;
use crate::hex;
use crate::orders::Order;
use crate::ran::Ran;
use crate::sides::{ours, theirs};
use crate::transfer::Transfer;
use coe_desk::AbortCode;
use ethercrab::play::Number;
use ethercrab::wire::EtherCrabWireRead;
use ethercrab::CoeAbortCode;
use std::fmt;

#[derive(Debug, Clone)]
pub enum Case {
    Transfer(Transfer),
    /// Two at one desk, entered in this order before the first request. In the text `then` stands between them.
    Pair(Transfer, Transfer),
    Frame(Frame),
    /// Every read of a finished payload.
    Payload(Vec<u8>),
    /// The name of an abort code, the number that it gives back and the words that it is printed with.
    AbortCode(u32),
    Order(Order),
}

/// What a comparison is made with.
pub struct Setting {
    pub listed: Listed,
    /// The words that start the order program.
    pub order_program: Vec<String>,
}

/// The listed differences that both sides met, or how they part.
pub type Verdict = Result<Vec<&'static str>, String>;

impl Case {
    pub fn compare(&self, setting: &Setting) -> Verdict {
        match self {
            Case::Transfer(transfer) => compare_transfer(transfer, &setting.listed),
            Case::Pair(first, second) => compare_pair(first, second, &setting.listed),
            Case::Frame(frame) => compare_frame(frame, &setting.listed),
            Case::Payload(payload) => compare_payload(payload),
            Case::AbortCode(number) => compare_abort_code(*number),
            Case::Order(order) => order.compare(setting),
        }
    }

    /// What both sides say of a transfer or a frame.
    pub fn both_sides(&self) -> Result<String, String> {
        Ok(match self {
            Case::Transfer(transfer) => {
                let theirs = theirs::run(&theirs::Asked::plainly(transfer));
                format!("here: {}\nRust: {}\n      {:?}\n", ours::run(transfer)?, theirs.ran, theirs.outcome)
            }
            Case::Frame(frame) => format!("here: {}\nRust: {}\n", frame.ours()?, frame.theirs()),
            _ => String::new(),
        })
    }

    pub fn parse(text: &str) -> Result<Case, String> {
        let text = text.trim();
        match text.split_whitespace().next() {
            Some("frame") => Frame::parse(text).map(Case::Frame),
            Some("payload") => hex::bytes(text["payload".len()..].trim()).map(Case::Payload),
            Some("abort") => u32::from_str_radix(text["abort".len()..].trim(), 16)
                .map(Case::AbortCode)
                .map_err(|_| format!("`{text}`: an abort code is as `abort 06020000`")),
            Some("order") => Order::parse(text["order".len()..].trim()).map(Case::Order),
            _ => match text.split_once("\nthen\n") {
                Some((first, second)) => Ok(Case::Pair(Transfer::parse(first)?, Transfer::parse(second)?)),
                None => Transfer::parse(text).map(Case::Transfer),
            },
        }
    }
}

impl fmt::Display for Case {
    fn fmt(&self, f: &mut fmt::Formatter<'_>) -> fmt::Result {
        match self {
            Case::Transfer(transfer) => transfer.fmt(f),
            Case::Pair(first, second) => write!(f, "{first}\nthen\n{second}"),
            Case::Frame(frame) => frame.fmt(f),
            Case::Payload(payload) => write!(f, "payload {}", hex::text(payload)),
            Case::AbortCode(number) => write!(f, "abort {number:08x}"),
            Case::Order(order) => write!(f, "order {order}"),
        }
    }
}

fn compare_transfer(transfer: &Transfer, listed: &Listed) -> Verdict {
    compare_runs(transfer, &ours::run(transfer)?, listed)
}

fn compare_runs(transfer: &Transfer, ours: &Ran, listed: &Listed) -> Verdict {
    explain(transfer, listed, |theirs| theirs == ours).map_err(|theirs| {
        let parts = ours.differing(&theirs.ran).join(", ");
        format!("here: {ours}\nRust: {}\n      {:?}\ndiffering: {parts}", theirs.ran, theirs.outcome)
    })
}

/// The Rust has no line: its second call begins when the first has ended, with the counter that the first left.
fn compare_pair(first: &Transfer, second: &Transfer, listed: &Listed) -> Verdict {
    let (head, next) = ours::run_pair(first, second)?;
    let mut met = compare_runs(first, &head, listed).map_err(|why| format!("the first of two\n{why}"))?;
    let second = Transfer { counter: head.counter, ..second.clone() };
    met.extend(compare_runs(&second, &next, listed).map_err(|why| format!("the second of two\n{why}"))?);
    Ok(met)
}

fn compare_frame(frame: &Frame, listed: &Listed) -> Verdict {
    let ours = frame.ours()?;
    explain_frame(frame, listed, &ours).map_err(|_| format!("here: {ours}\nRust: {}", frame.theirs()))
}

fn compare_payload(payload: &[u8]) -> Verdict {
    for number in [Number::U8, Number::U16, Number::U32, Number::I8, Number::I16, Number::I32] {
        let (here, rust) = (ours::read_number(number, payload), theirs::read_number(number, payload));
        if here != rust {
            return Err(format!("{number:?} here: {here:?}\n{number:?} Rust: {rust:?}"));
        }
    }
    let lists = (ours::read_list(payload), theirs::read_list(payload));
    let counts = (ours::read_quantities(payload), theirs::read_quantities(payload));
    for (what, (here, rust)) in [("list", lists), ("quantities", counts)] {
        if here != rust {
            return Err(format!("{what} here: {here:?}\n{what} Rust: {rust:?}"));
        }
    }
    Ok(Vec::new())
}

fn compare_abort_code(number: u32) -> Verdict {
    let rust = CoeAbortCode::unpack_from_slice(&number.to_le_bytes()).map_err(|error| format!("Rust: {error:?}"))?;
    let here = AbortCode::from(number);
    let names = (format!("{here:?}"), format!("{rust:?}"));
    let numbers = (format!("{:08x}", u32::from(here)), format!("{:08x}", u32::from(rust)));
    let texts = (here.to_string(), rust.to_string());
    for (what, (here, rust)) in [("name", names), ("number", numbers), ("text", texts)] {
        if here != rust {
            return Err(format!("the {what} here is `{here}`, and in the Rust `{rust}`"));
        }
    }
    Ok(Vec::new())
}
