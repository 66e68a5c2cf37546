//! Runs the implementations on hand-worked and generated files and days and on
//! alike pairs of them, has them quote files, and says how often they differ.

mod compare;
mod quotes;
mod trial;

use compare::Comparison;
use generator::alike::{self, Pair};
use generator::random::Random;
use generator::{day_alike, days, exhaust, forward};
use mutants::{by_hand, day_by_hand};
use reference::limits::header;
use std::process::ExitCode;
use trial::IMPLEMENTATIONS;

const USAGE: &str =
    "usage: differential [--files N] [--pairs N] [--days N] [--day-pairs N] [--quotes N] [--seed N]";

/// Every so many files, one is also run with each smaller allotment.
const EXHAUSTED: u64 = 500;
/// Every so many days, one is also run with each limit of its steps that matters.
const LIMITED: u64 = 50;

struct Bounds {
    files: u64,
    pairs: u64,
    days: u64,
    day_pairs: u64,
    quotes: u64,
    seed: u64,
}

fn main() -> ExitCode {
    let Some(bounds) = bounds(std::env::args().skip(1)) else {
        eprintln!("{USAGE}");
        return ExitCode::FAILURE;
    };
    let mut comparison = Comparison::default();
    by_hand_files(&mut comparison);
    generated_files(&mut comparison, &bounds);
    generated_pairs(&mut comparison, &bounds);
    by_hand_days(&mut comparison);
    generated_days(&mut comparison, &bounds);
    quotes_by_hand(&mut comparison);
    generated_quotes(&mut comparison, &bounds);
    let names: Vec<&str> = IMPLEMENTATIONS.iter().map(|implementation| implementation.name).collect();
    let Comparison { files, pairs, days, day_pairs, quotes, reads, differences } = comparison;
    println!(
        "{}: {files} files, {pairs} alike pairs, {days} days, {day_pairs} alike pairs of days, \
         {quotes} quotes, {reads} reads, {differences} differences",
        names.join(" and ")
    );
    if differences == 0 {
        ExitCode::SUCCESS
    } else {
        ExitCode::FAILURE
    }
}

fn bounds(mut arguments: impl Iterator<Item = String>) -> Option<Bounds> {
    let mut bounds =
        Bounds { files: 20_000, pairs: 5_000, days: 20_000, day_pairs: 5_000, quotes: 20_000, seed: 0 };
    while let Some(name) = arguments.next() {
        let number = arguments.next()?.parse().ok()?;
        match name.as_str() {
            "--files" => bounds.files = number,
            "--pairs" => bounds.pairs = number,
            "--days" => bounds.days = number,
            "--day-pairs" => bounds.day_pairs = number,
            "--quotes" => bounds.quotes = number,
            "--seed" => bounds.seed = number,
            _ => return None,
        }
    }
    Some(bounds)
}

fn by_hand_files(comparison: &mut Comparison) {
    let mut random = Random::new(0);
    for case in cases::all() {
        comparison.file(&case.name, &case.file, &mut random);
    }
    for (mutants, pair) in by_hand::pairs() {
        let name = format!("by hand for {mutants:?}");
        comparison.file(&name, &pair.file, &mut random);
        comparison.pair(&name, &pair);
    }
}

fn generated_files(comparison: &mut Comparison, bounds: &Bounds) {
    for seed in bounds.seed..bounds.seed + bounds.files {
        let name = format!("seed {seed}");
        let mut random = Random::new(!seed);
        let file = generator::any(seed);
        comparison.file(&name, &file, &mut random);
        if seed % EXHAUSTED == 0 {
            for variant in exhaust::variants(&file) {
                comparison.file(&format!("{name}, exhausted"), &variant, &mut random);
            }
        }
    }
}

fn generated_pairs(comparison: &mut Comparison, bounds: &Bounds) {
    for seed in bounds.seed..bounds.seed + bounds.pairs {
        let name = format!("pair of seed {seed}");
        let pair = alike::pair(seed);
        comparison.pair(&name, &pair);
        if seed % EXHAUSTED == 0 {
            // The allotment is not hidden, so both files get the one of the first.
            for file in exhaust::variants(&pair.file) {
                let mut other = pair.other.clone();
                other[..header::LENGTH].copy_from_slice(&file[..header::LENGTH]);
                comparison.pair(&format!("{name}, exhausted"), &Pair { file, other, reader: pair.reader });
            }
        }
    }
}

fn by_hand_days(comparison: &mut Comparison) {
    let mut random = Random::new(0);
    for case in cases::days::all() {
        comparison.day(&case.name, &case.file, &mut random);
    }
    for (mutants, pair) in day_by_hand::pairs() {
        let name = format!("by hand for {mutants:?}");
        comparison.day(&name, &pair.file, &mut random);
        comparison.day_pair(&name, &pair);
    }
}

fn generated_days(comparison: &mut Comparison, bounds: &Bounds) {
    for seed in bounds.seed..bounds.seed + bounds.days {
        let name = format!("day of seed {seed}");
        let mut random = Random::new(!seed);
        let file = days::any(seed);
        comparison.day(&name, &file, &mut random);
        if seed % LIMITED == 0 {
            for variant in days::limits(&file) {
                comparison.day(&format!("{name}, limited"), &variant, &mut random);
            }
        }
    }
    for seed in bounds.seed..bounds.seed + bounds.day_pairs {
        comparison.day_pair(&format!("pair of days of seed {seed}"), &day_alike::pair(seed));
    }
}

fn quotes_by_hand(comparison: &mut Comparison) {
    let mut random = Random::new(0);
    for case in cases::quotes::all() {
        comparison.expected_quote(&case.name, &case.file, case.expected);
        comparison.quote(&case.name, &case.file, &mut random);
    }
    for case in cases::all() {
        comparison.quote(&case.name, &case.file, &mut random);
    }
}

fn generated_quotes(comparison: &mut Comparison, bounds: &Bounds) {
    for seed in bounds.seed..bounds.seed + bounds.quotes {
        let mut random = Random::new(!seed);
        comparison.quote(&format!("file to be quoted, of seed {seed}"), &forward::any(seed), &mut random);
    }
}
