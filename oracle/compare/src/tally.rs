//! What was compared so far, and the end of a run that fails.
use crate::case::{Case, Setting, Verdict};
use std::collections::BTreeMap;
use std::fmt;

#[derive(Default)]
pub struct Tally {
    seed: u64,
    compared: Vec<(String, u64)>,
    /// By the number of the id, so that D2 stands before D10.
    met: BTreeMap<(usize, &'static str), u64>,
}

impl Tally {
    pub fn new(seed: u64) -> Tally {
        Tally { seed, ..Tally::default() }
    }

    pub fn add(&mut self, source: &str, met: &[&'static str]) {
        match self.compared.last_mut() {
            Some((last, count)) if last == source => *count += 1,
            _ => self.compared.push((source.into(), 1)),
        }
        for id in met {
            *self.met.entry((id.len(), id)).or_default() += 1;
        }
    }

    pub fn total(&self) -> u64 {
        self.compared.iter().map(|(_, count)| count).sum()
    }

    /// Compares a case and counts it, or says how it failed.
    pub fn compare(&mut self, source: &str, number: u64, case: &Case, setting: &Setting) -> Verdict {
        let met = case.compare(setting).map_err(|why| self.failed(source, number, case, &why))?;
        self.add(source, &met);
        Ok(met)
    }

    pub fn failed(&self, source: &str, number: u64, case: &Case, why: &str) -> String {
        format!(
            "the two sides part, and no listed difference says so\n\
             found by {source}, seed {}, number {number} counted from 0, after {} cases in all\n\n{case}\n\n{why}",
            self.seed,
            self.total()
        )
    }
}

impl fmt::Display for Tally {
    fn fmt(&self, f: &mut fmt::Formatter<'_>) -> fmt::Result {
        let compared: Vec<String> = self.compared.iter().map(|(source, count)| format!("{source} {count}")).collect();
        let met: Vec<String> = self.met.iter().map(|((_, id), count)| format!("{id} {count}")).collect();
        write!(f, "{} compared: {}; of them met: {}", self.total(), compared.join(", "), met.join(", "))
    }
}
