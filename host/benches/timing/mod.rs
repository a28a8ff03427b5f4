//! Two ways to do the same work, timed by turns.
mod counts;

pub use counts::{counted, counting};

use std::mem::ManuallyDrop;
use std::ptr;
use std::time::Instant;

/// Many and short, of a millisecond or so: where other work takes the processor for a while, it spoils few of them.
const ROUNDS: usize = 101;

/// The value, of which the compiler knows nothing any more: `std::hint::black_box` is newer than the crate's Rust.
#[inline(always)]
pub fn opaque<T>(value: T) -> T {
    let value = ManuallyDrop::new(value);
    // SAFETY: a reference is readable; the value is taken out once, and is not dropped here.
    unsafe { ptr::read_volatile(&*value) }
}

/// Nanoseconds for one of so many calls. Where instructions are counted, one call is made.
pub fn each(calls: u32, mut call: impl FnMut()) -> f64 {
    if counted(&mut call) {
        return 0.0;
    }
    let begun = Instant::now();
    for _ in 0..calls {
        call();
    }
    begun.elapsed().as_nanos() as f64 / f64::from(calls)
}

/// The value that a share of the values is at most.
fn quantile(values: &[f64], share: f64) -> f64 {
    let mut sorted = values.to_vec();
    sorted.sort_by(f64::total_cmp);
    sorted[((sorted.len() - 1) as f64 * share).round() as usize]
}

/// Prints one line, of fields with tabs between them: the table, its row and column, the nanoseconds of both, the ratio, and the
/// ends of the middle half of the ratios. Each round has both run, one right after the other and each the first in every other round,
/// and takes the ratio of the two.
pub fn print_ratio(table: &str, row: &str, column: &str, mut archive: impl FnMut() -> f64, mut plain: impl FnMut() -> f64) {
    if counting() {
        (archive(), plain());
        println!("{table}\t{row}\t{column}");
        return;
    }
    let (mut archives, mut plains, mut ratios) = (Vec::new(), Vec::new(), Vec::new());
    for round in 0..ROUNDS {
        let (a, p);
        if round % 2 == 0 {
            a = archive();
            p = plain();
        } else {
            p = plain();
            a = archive();
        }
        archives.push(a);
        plains.push(p);
        ratios.push(a / p);
    }
    println!(
        "{table}\t{row}\t{column}\t{:.1}\t{:.1}\t{:.3}\t{:.3}\t{:.3}",
        quantile(&archives, 0.5),
        quantile(&plains, 0.5),
        quantile(&ratios, 0.5),
        quantile(&ratios, 0.25),
        quantile(&ratios, 0.75),
    );
}
