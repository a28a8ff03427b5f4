//! The comparison of the published Rust with the exported functions and the order program: see ../README.md.
mod case;
mod differences;
mod emergency;
mod fields;
mod frames;
mod generate;
mod hex;
mod options;
mod orders;
mod ran;
mod rng;
mod sides;
mod stored;
mod tally;
#[cfg(test)]
mod tests;
mod transfer;

use case::{Case, Setting};
use differences::Listed;
use generate::Generator;
use options::Options;
use std::io::Read;
use std::process::exit;
use std::time::Instant;
use tally::Tally;

fn main() {
    ethercrab::play::keep_panics_quiet();
    let options = Options::parse(std::env::args().skip(1)).unwrap_or_else(|why| {
        eprintln!("compare: {why}\n\n{}", options::USAGE);
        exit(2)
    });
    match run(&options) {
        Ok(said) => println!("{said}"),
        Err(why) => {
            println!("compare: {why}");
            exit(1)
        }
    }
}

fn run(options: &Options) -> Result<String, String> {
    let text =
        std::fs::read_to_string(&options.differences).map_err(|error| format!("{}: {error}", options.differences.display()))?;
    let setting = Setting { listed: Listed::parse(&text)?, order_program: options.order_program.clone() };
    if options.replay {
        return replayed(&setting);
    }
    let mut tally = Tally::new(options.seed);
    if !options.generators_only {
        listed_inputs(&setting, &mut tally)?;
        stored_cases(options, &setting, &mut tally)?;
    }
    for (generator, count) in generate::counts(options.cases) {
        generated(generator, count, options.seed, &setting, &mut tally)?;
    }
    if !options.generators_only {
        generated(&generate::ORDERS, options.orders, options.seed, &setting, &mut tally)?;
    }
    Ok(tally.to_string())
}

fn replayed(setting: &Setting) -> Result<String, String> {
    let mut text = String::new();
    std::io::stdin().read_to_string(&mut text).map_err(|error| format!("standard input: {error}"))?;
    let case = Case::parse(&text)?;
    let met = case.compare(setting)?;
    let both = case.both_sides()?;
    Ok(match met.is_empty() {
        true => format!("{both}the two sides agree"),
        false => format!("{both}the two sides part as listed: {}", met.join(", ")),
    })
}

/// Each difference in the list is known and its row shows its smallest input, and on that input the two sides part as it says.
fn listed_inputs(setting: &Setting, tally: &mut Tally) -> Result<(), String> {
    if let Some(id) = setting.listed.unknown().first() {
        return Err(format!("{id} is listed, and this program knows no input of it: add it to compare/src/differences"));
    }
    // Another row's input may need a row that is missing: that row's own input is shown first.
    for difference in differences::all().filter(|difference| !setting.listed.has(difference.id)) {
        let case = Case::parse(difference.smallest)?;
        case.compare(setting)
            .map_err(|why| format!("{} is not listed, and on its input the sides part:\n\n{case}\n\n{why}", difference.id))?;
    }
    let nothing_listed = Setting { listed: Listed::parse("")?, order_program: Vec::new() };
    for (number, difference) in differences::all().enumerate() {
        let case = Case::parse(difference.smallest)?;
        let id = difference.id;
        if case.compare(&nothing_listed).is_ok() {
            return Err(format!("{id} is listed, but both sides agree on its input:\n\n{case}"));
        }
        let met = tally.compare("listed", number as u64, &case, setting).map_err(|why| format!("the input of {id}: {why}"))?;
        if !met.contains(&id) {
            return Err(format!("the input of {id} meets {met:?}, and not {id}:\n\n{case}"));
        }
        if let Some(line) = setting.listed.not_shown(difference).first() {
            return Err(format!("the row of {id} does not show this line of its input, as `..`:\n\n{line}"));
        }
    }
    Ok(())
}

fn stored_cases(options: &Options, setting: &Setting, tally: &mut Tally) -> Result<(), String> {
    if let Some(file) = &options.vectors {
        for (number, row) in (0..).zip(stored::rows(file)?) {
            let case = Case::Transfer(row.transfer.clone());
            row.holds(&setting.listed).map_err(|why| tally.failed("vectors", number, &case, &why))?;
            tally.compare("vectors", number, &case, setting)?;
        }
    }
    if let Some(folder) = &options.stored_orders {
        for (number, case) in (0..).zip(stored::orders(folder)?) {
            tally.compare("stored orders", number, &case, setting)?;
        }
    }
    Ok(())
}

fn generated(generator: &Generator, count: u64, seed: u64, setting: &Setting, tally: &mut Tally) -> Result<(), String> {
    let began = Instant::now();
    for number in 0..count {
        tally.compare(generator.name, number, &generator.case(seed, number), setting)?;
    }
    println!("{}: {count} cases, {:.1} s", generator.name, began.elapsed().as_secs_f64());
    Ok(())
}
