//! The corpus of files to be quoted: the examples, hand-worked files, generated files
//! that tell wrong quotes from the right one, and a choice of others.

use crate::{example_entries, Entry};
use generator::random::Random;
use generator::{forward, invalid, near_miss};
use mutants::quote_search::differs;
use mutants::{wrong_quotes, MOST_QUOTES};
use reference::print;
use std::collections::{BTreeSet, HashSet};

/// Generated files are taken up to this length, so that the corpus stays small.
const LONGEST_FILE: usize = 300;

const QUOTED_FILES: usize = 70;
const NEAR_MISSES: usize = 30;
const INVALID_FILES: usize = 3;
/// So many generated files are to tell each wrong quote, one of them of any length if
/// no short one does.
const TELLING_FILES: usize = 2;

/// All files, and of equal ones the first.
pub fn entries() -> Vec<Entry> {
    let hand_worked = cases::quotes::all().into_iter().map(|case| Entry { name: case.name, file: case.file });
    let mut entries: Vec<Entry> = example_entries().chain(hand_worked).collect();
    entries.extend(generated());
    let mut seen = HashSet::new();
    entries.retain(|entry| seen.insert(entry.file.clone()));
    entries
}

/// Those that are not worked by hand.
pub fn generated() -> Vec<Entry> {
    telling_files().chain(quoted_files()).chain(near_misses()).chain(invalid_files()).collect()
}

/// Files that tell wrong quotes, by rising seed.
fn telling_files() -> impl Iterator<Item = Entry> {
    let mut seeds: BTreeSet<u64> = BTreeSet::new();
    for wrong in wrong_quotes::all() {
        let telling = |seed: &u64| differs(&wrong, &forward::any(*seed));
        let short = |seed: &u64| forward::any(*seed).len() <= LONGEST_FILE;
        let found: Vec<u64> = (0..MOST_QUOTES).filter(short).filter(telling).take(TELLING_FILES).collect();
        if found.is_empty() {
            seeds.extend((0..MOST_QUOTES).find(telling));
        }
        seeds.extend(found);
    }
    seeds.into_iter().map(|seed| Entry { name: format!("seed {seed}"), file: forward::any(seed) })
}

fn quoted_files() -> impl Iterator<Item = Entry> {
    small_files("quotable file of seed", forward::valid).take(QUOTED_FILES)
}

fn near_misses() -> impl Iterator<Item = Entry> {
    small_files("near miss of seed", |seed| near_miss::script(&mut Random::new(seed)).bytes())
        .take(NEAR_MISSES)
}

fn invalid_files() -> impl Iterator<Item = Entry> {
    (1..=7).flat_map(|refusal| {
        let file = move |seed: u64| {
            let mut random = Random::new(seed);
            let script = near_miss::script(&mut random);
            invalid::broken(&mut random, script, refusal)
        };
        small_files(format!("refusal {refusal} of seed"), file).take(INVALID_FILES)
    })
}

fn small_files(name: impl Into<String>, file: impl Fn(u64) -> Vec<u8>) -> impl Iterator<Item = Entry> {
    let name = name.into();
    (0..)
        .map(move |seed| Entry { name: format!("{name} {seed}"), file: file(seed) })
        .filter(|entry| entry.file.len() <= LONGEST_FILE)
}

/// What has to be printed for the batch: a line for each file.
pub fn expected(entries: &[Entry]) -> String {
    entries.iter().map(|entry| print::quote_line(&entry.file)).collect()
}
