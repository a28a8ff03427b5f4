//! The differences of docs/DIFFERENCES.md that can be compared. Each says what the Rust would have had to be asked, or to answer, to agree
//! with documents 01 and 02, from the input and the Rust's own answer alone. It explains two sides that part only if they are then equal in
//! every byte that is compared, so that what it lets through is what its row says and nothing else.
mod lent;
mod list;
mod replies;
mod requests;

pub use list::Listed;

use crate::frames::{Frame, Written};
use crate::ran::Ran;
use crate::sides::theirs::{self, Answered, Asked};
use crate::transfer::Transfer;
use std::borrow::Cow;

/// What the Rust was asked, and what it answered.
pub struct Parting<'a> {
    pub asked: &'a Asked<'a>,
    pub theirs: &'a Answered,
}

impl<'a> Parting<'a> {
    pub fn transfer(&self) -> &'a Transfer {
        &self.asked.transfer
    }

    /// The reply at which the Rust ended, as it came.
    pub fn last_reply(&self) -> Option<&'a [u8]> {
        let last = self.theirs.ran.judged.checked_sub(1)?;
        self.transfer().replies.get(last).map(Vec::as_slice)
    }

    /// The same, as the Rust was given it.
    pub fn last_given(&self) -> Option<Cow<'a, [u8]>> {
        self.theirs.ran.judged.checked_sub(1).map(|last| self.asked.given(last))
    }

    /// The Rust's run with another end.
    pub fn ending(&self, end: crate::ran::End) -> Option<Instead<'a>> {
        Some(Instead::Ran(Ran { end, ..self.theirs.ran.clone() }))
    }
}

pub enum Instead<'a> {
    /// Asked so, the Rust is to give our answer: the comparison goes on.
    Asked(Asked<'a>),
    /// What our side must have done.
    Ran(Ran),
}

#[derive(Clone, Copy)]
pub enum Rule {
    Transfer(for<'a> fn(&Parting<'a>) -> Option<Instead<'a>>),
    /// What the Rust is to be asked also where the two sides do not part: they could agree on the Rust's reading, which is not ours.
    Always(for<'a> fn(&Parting<'a>) -> Option<Asked<'a>>),
    Frame(fn(&Frame, &Written) -> Option<Written>),
}

pub struct Difference {
    pub id: &'static str,
    /// The smallest input, in the text that `--replay` takes.
    pub smallest: &'static str,
    pub rule: Rule,
}

/// All of them. Those that alter what is asked come first: what the Rust answers after them is its answer to our question.
pub fn all() -> impl Iterator<Item = &'static Difference> {
    requests::ALL.iter().chain(lent::ASKED).chain(replies::ASKED).chain(lent::ENDS).chain(replies::ENDS)
}

/// What explains where the two sides part, by id, or the answer of the Rust that nothing explains.
pub fn explain(transfer: &Transfer, listed: &Listed, same: impl Fn(&Ran) -> bool) -> Result<Vec<&'static str>, Box<Answered>> {
    let mut asked = Asked::plainly(transfer);
    let mut met = Vec::new();
    loop {
        let theirs = theirs::run(&asked);
        let agree = same(&theirs.ran);
        let parting = Parting { asked: &asked, theirs: &theirs };
        let explained = all().filter(|difference| listed.has(difference.id)).find_map(|difference| match difference.rule {
            Rule::Always(rule) => Some((difference.id, Some(owned(rule(&parting)?)))),
            Rule::Transfer(rule) if !agree => match rule(&parting)? {
                Instead::Ran(ran) => same(&ran).then_some((difference.id, None)),
                Instead::Asked(asked) => Some((difference.id, Some(owned(asked)))),
            },
            Rule::Transfer(_) | Rule::Frame(_) => None,
        });
        match explained {
            Some((id, next)) => {
                if !agree {
                    met.push(id);
                }
                match next {
                    Some(next) => asked = next,
                    None => return Ok(met),
                }
            }
            None if agree => return Ok(met),
            None => return Err(Box::new(theirs)),
        }
    }
}

fn owned<'a>(asked: Asked<'_>) -> Asked<'a> {
    Asked { transfer: Cow::Owned(asked.transfer.into_owned()), ..asked }
}

/// The same for a request's writer.
pub fn explain_frame(frame: &Frame, listed: &Listed, ours: &Written) -> Result<Vec<&'static str>, Written> {
    let mut theirs = frame.theirs();
    let mut met = Vec::new();
    for difference in all().filter(|difference| listed.has(difference.id)) {
        if *ours == theirs {
            return Ok(met);
        }
        if let Rule::Frame(rule) = difference.rule {
            if let Some(written) = rule(frame, &theirs) {
                theirs = written;
                met.push(difference.id);
            }
        }
    }
    if *ours == theirs {
        return Ok(met);
    }
    Err(theirs)
}
