//! The generators: case `number` of a generator is made from the seed, its name and the number alone.
mod conversations;
mod damage;
mod long;
mod replies;
mod sweeps;
mod whole;

use crate::case::Case;
use crate::rng::Rng;

pub struct Generator {
    pub name: &'static str,
    /// What of a run's cases is its.
    pub share: u64,
    /// How many cases there are, where they are counted out.
    pub limit: Option<u64>,
    make: fn(&mut Rng, u64) -> Case,
}

impl Generator {
    pub fn case(&self, seed: u64, number: u64) -> Case {
        // A sweep takes its cases in an order of its own for each seed, so that a part of it is spread over all of it.
        let place = self.limit.map_or(number, |limit| sweeps::place(seed, number, limit));
        (self.make)(&mut Rng::new(seed, self.name, number), place)
    }
}

pub const ALL: &[Generator] = &[
    Generator { name: "heads", share: 30, limit: Some(sweeps::HEADS), make: sweeps::head },
    Generator { name: "lengths", share: 10, limit: Some(sweeps::LENGTHS), make: sweeps::length },
    Generator { name: "edges", share: 16, limit: None, make: |rng, _| whole::edges(rng) },
    Generator { name: "segments", share: 10, limit: None, make: |rng, _| whole::segments(rng) },
    Generator { name: "lists", share: 8, limit: None, make: |rng, _| whole::lists(rng) },
    Generator { name: "damaged", share: 14, limit: None, make: |rng, _| whole::damaged(rng) },
    Generator { name: "pairs", share: 5, limit: None, make: |rng, _| whole::pair(rng) },
    Generator { name: "numbers", share: 5, limit: None, make: |rng, _| whole::numbers(rng) },
    Generator { name: "payloads", share: 3, limit: None, make: |rng, _| whole::payload(rng) },
    Generator { name: "frames", share: 4, limit: None, make: |rng, _| whole::frame(rng) },
    Generator { name: "abort codes", share: 0, limit: Some(sweeps::ABORT_CODES), make: |_, place| sweeps::abort_code(place) },
    Generator { name: "long", share: 0, limit: Some(long::COUNT), make: long::case },
];

/// How many cases of each generator a run of so many has. A sweep has no more than all of its cases, and without a share it
/// always has them all.
pub fn counts(cases: u64) -> impl Iterator<Item = (&'static Generator, u64)> {
    let shares: u64 = ALL.iter().map(|generator| generator.share).sum();
    ALL.iter().map(move |generator| match generator.limit {
        Some(limit) if generator.share == 0 => (generator, limit),
        limit => (generator, (cases * generator.share / shares).min(limit.unwrap_or(u64::MAX))),
    })
}

/// Order files have a count of their own, since each is a process.
pub const ORDERS: Generator = Generator { name: "orders", share: 0, limit: None, make: |rng, _| whole::order(rng) };
