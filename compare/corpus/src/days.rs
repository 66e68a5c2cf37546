//! The corpus of days: the example, hand-worked days, pairs that tell mutants from
//! the original, and a choice of generated days.

use crate::{sides, Entry};
use generator::random::Random;
use generator::{day_alike, day_invalid, days};
use mutants::day_by_hand;
use reference::batch;

/// Generated days are taken up to this length, and if all their lines together
/// are no longer than this, so that the corpus stays small.
const LONGEST_DAY: usize = 700;
const LONGEST_LINES: usize = 12_000;

/// Of the days that are too long, or nearly so, this one is enough.
const TOO_LONG: &str = "a day of 65,536 bytes";
const LONG: usize = 60_000;

const VALID_DAYS: usize = 45;
const PAIRS: usize = 18;
const INVALID_DAYS: usize = 4;

/// All days, alike pairs side by side.
pub fn entries() -> Vec<Entry> {
    let example = Entry {
        name: "example counter_day".into(),
        file: include_bytes!("../../../examples/counter_day.day").to_vec(),
    };
    let mut entries = vec![example];
    entries.extend(
        cases::days::all()
            .into_iter()
            .filter(|case| case.file.len() < LONG || case.name == TOO_LONG)
            .map(|case| Entry { name: case.name, file: case.file }),
    );
    for (number, (_, pair)) in day_by_hand::pairs().into_iter().enumerate() {
        entries.extend(sides(&format!("day by hand {number}"), pair));
    }
    entries.extend(generated_pairs());
    entries.extend(generated_days());
    entries.extend(invalid_days());
    entries
}

fn is_small(file: &[u8]) -> bool {
    file.len() <= LONGEST_DAY && batch::day_lines(file).len() <= LONGEST_LINES
}

fn generated_pairs() -> impl Iterator<Item = Entry> {
    (0..)
        .map(|seed| (seed, day_alike::pair(seed)))
        .filter(|(_, pair)| is_small(&pair.file))
        .take(PAIRS)
        .flat_map(|(seed, pair)| sides(&format!("pair of days of seed {seed}"), pair))
}

fn generated_days() -> impl Iterator<Item = Entry> {
    (0..)
        .map(|seed| Entry { name: format!("day of seed {seed}"), file: days::valid(seed) })
        .filter(|entry| is_small(&entry.file))
        .take(VALID_DAYS)
}

fn invalid_days() -> impl Iterator<Item = Entry> {
    day_invalid::REFUSALS.into_iter().flat_map(|refusal| {
        (0..)
            .map(move |seed| Entry {
                name: format!("day with refusal {refusal} of seed {seed}"),
                file: day_invalid::file(&mut Random::new(seed), refusal),
            })
            .filter(|entry| entry.file.len() <= LONGEST_DAY)
            .take(INVALID_DAYS)
    })
}

/// What has to be printed for the batch.
pub fn expected(entries: &[Entry]) -> String {
    entries.iter().map(|entry| batch::day_lines(&entry.file)).collect()
}
