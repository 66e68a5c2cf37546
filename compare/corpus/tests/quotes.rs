//! The corpus of files to be quoted is large enough, small enough, and sees everything.

use corpus::{quotes, Entry};
use generator::quote_coverage::{Point, QuoteCoverage};
use mutants::quote_search::differs;
use mutants::wrong_quotes::{self, WrongQuote};
use std::collections::{BTreeMap, HashSet};

#[test]
fn sizes() {
    let entries = quotes::entries();
    assert!((300..800).contains(&entries.len()), "{} files", entries.len());
    let batch = corpus::batch(&entries);
    assert!(batch.len() < 300_000, "{} bytes", batch.len());
    let files = reference::batch::split(&batch).expect("a whole batch");
    assert!(files.iter().zip(&entries).all(|(file, entry)| *file == entry.file));
    assert_eq!(files.len(), entries.len());
}

#[test]
fn names_and_files_tell_entries_apart() {
    let entries = quotes::entries();
    let names: HashSet<&str> = entries.iter().map(|entry| entry.name.as_str()).collect();
    let files: HashSet<&[u8]> = entries.iter().map(|entry| entry.file.as_slice()).collect();
    assert_eq!(names.len(), entries.len());
    assert_eq!(files.len(), entries.len());
}

#[test]
fn every_hand_worked_file_is_there() {
    let entries = quotes::entries();
    let files: HashSet<&[u8]> = entries.iter().map(|entry| entry.file.as_slice()).collect();
    assert!(cases::quotes::all().iter().all(|case| files.contains(case.file.as_slice())));
}

#[test]
fn lines_vary_and_every_refusal_is_there() {
    let entries = quotes::entries();
    let expected = quotes::expected(&entries);
    assert_eq!(expected.lines().count(), entries.len());
    let mut lines: BTreeMap<&str, usize> = BTreeMap::new();
    expected.lines().for_each(|line| *lines.entry(line).or_default() += 1);
    for refusal in (1..=7).chain([11]) {
        let count = lines.get(format!("refused {refusal}").as_str()).copied().unwrap_or(0);
        assert!(count >= 5, "{count} refused {refusal}");
    }
    let quoted = lines.keys().filter(|line| line.starts_with("steps ")).count();
    assert!(quoted >= 100, "{quoted} quotes");
}

#[test]
fn every_point_is_reached_but_by_chance() {
    let mut coverage = QuoteCoverage::default();
    quotes::entries().iter().for_each(|entry| coverage.add(&entry.file));
    assert_eq!(coverage.overruns, 0);
    // Which instructions stand in dead code is no matter.
    let missing: Vec<Point> =
        coverage.missing().into_iter().filter(|point| !matches!(point, Point::OffPath(_))).collect();
    assert_eq!(missing, []);
}

fn untold(entries: &[Entry]) -> Vec<&'static str> {
    let told = |wrong: &WrongQuote| entries.iter().any(|entry| differs(wrong, &entry.file));
    wrong_quotes::all().iter().filter(|wrong| !told(wrong)).map(|wrong| wrong.name).collect()
}

#[test]
fn every_wrong_quote_prints_something_else() {
    assert_eq!(untold(&quotes::entries()), [""; 0]);
}

/// Without the hand-worked files, too.
#[test]
fn generated_files_are_enough() {
    assert_eq!(untold(&quotes::generated()), [""; 0]);
}
