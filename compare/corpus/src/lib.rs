//! The corpus: hand-worked files, pairs that tell mutants from the original,
//! and a choice of generated files. It is the same every time. That of days is
//! in [`days`], that of files to be quoted in [`quotes`].

pub mod days;
pub mod quotes;

use generator::random::Random;
use generator::{alike, exhaust, invalid};
use mutants::by_hand;
use reference::batch;

/// Generated files are taken up to this length, and if all their lines together
/// are no longer than this, so that the corpus stays small.
const LONGEST_FILE: usize = 450;
const LONGEST_LINES: usize = 6_000;

const VALID_FILES: usize = 80;
const PAIRS: usize = 50;
const INVALID_FILES: usize = 8;
const EXHAUSTED_FILES: usize = 2;

#[derive(Clone, Debug, PartialEq, Eq)]
pub struct Entry {
    pub name: String,
    pub file: Vec<u8>,
}

/// The files of the repository's examples.
const EXAMPLES: [(&str, &[u8]); 3] = [
    ("compare_presets", include_bytes!("../../../examples/compare_presets.script")),
    ("demo_set", include_bytes!("../../../examples/demo_set.script")),
    ("crash_count", include_bytes!("../../../examples/crash_count.script")),
];

/// All files, alike pairs side by side.
pub fn entries() -> Vec<Entry> {
    let hand_worked = cases::all().into_iter().map(|case| Entry { name: case.name, file: case.file });
    let mut entries: Vec<Entry> = example_entries().chain(hand_worked).collect();
    for (number, (_, pair)) in by_hand::pairs().into_iter().enumerate() {
        entries.extend(sides(&format!("by hand {number}"), pair));
    }
    entries.extend(generated_pairs());
    entries.extend(generated_files());
    entries.extend(exhausted_files());
    entries.extend(invalid_files());
    entries
}

fn example_entries() -> impl Iterator<Item = Entry> {
    EXAMPLES.iter().map(|&(name, file)| Entry { name: format!("example {name}"), file: file.to_vec() })
}

fn sides(name: &str, pair: alike::Pair) -> [Entry; 2] {
    let reader = pair.reader;
    [
        Entry { name: format!("{name}, one of two alike for label {reader}"), file: pair.file },
        Entry { name: format!("{name}, the other"), file: pair.other },
    ]
}

fn is_small(file: &[u8]) -> bool {
    file.len() <= LONGEST_FILE && batch::lines(file).len() <= LONGEST_LINES
}

fn generated_pairs() -> impl Iterator<Item = Entry> {
    (0..)
        .map(|seed| (seed, alike::pair(seed)))
        .filter(|(_, pair)| is_small(&pair.file))
        .take(PAIRS)
        .flat_map(|(seed, pair)| sides(&format!("pair of seed {seed}"), pair))
}

fn generated_files() -> impl Iterator<Item = Entry> {
    small_files("seed").take(VALID_FILES)
}

fn small_files(name: &'static str) -> impl Iterator<Item = Entry> {
    (0..)
        .map(move |seed| Entry { name: format!("{name} {seed}"), file: generator::valid(seed) })
        .filter(|entry| is_small(&entry.file))
}

/// Files with a block, cut off at every step and every place.
fn exhausted_files() -> impl Iterator<Item = Entry> {
    small_files("exhausted seed")
        .map(|entry| (entry.name, exhaust::variants(&entry.file)))
        .filter(|(_, variants)| (40..80).contains(&variants.len()))
        .take(EXHAUSTED_FILES)
        .flat_map(|(name, variants)| {
            let numbered = variants.into_iter().enumerate();
            numbered.map(move |(number, file)| Entry { name: format!("{name}, variant {number}"), file })
        })
}

fn invalid_files() -> impl Iterator<Item = Entry> {
    (1..=7).flat_map(|refusal| {
        (0..)
            .map(move |seed| Entry {
                name: format!("refusal {refusal} of seed {seed}"),
                file: invalid::file(&mut Random::new(seed), refusal),
            })
            .filter(|entry| entry.file.len() <= LONGEST_FILE)
            .take(INVALID_FILES)
    })
}

/// The files as one batch.
pub fn batch(entries: &[Entry]) -> Vec<u8> {
    let mut batch = Vec::new();
    entries.iter().for_each(|entry| batch::push(&mut batch, &entry.file));
    batch
}

/// What has to be printed for the batch.
pub fn expected(entries: &[Entry]) -> String {
    entries.iter().map(|entry| batch::lines(&entry.file)).collect()
}

/// The names of the files, one a line, in the order of the batch.
pub fn index(entries: &[Entry]) -> String {
    entries.iter().map(|entry| format!("{}\n", entry.name)).collect()
}
