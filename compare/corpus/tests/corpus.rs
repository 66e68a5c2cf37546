//! The corpus is large enough, small enough, and sees everything.

use generator::coverage::Coverage;
use mutants::list::{Mutant, MUTANTS};
use mutants::search::differs;
use mutants::writer_search;
use mutants::wrong::Wrong;
use mutants::wrong_writers::{self, WrongWriter};
use std::collections::HashSet;

#[test]
fn sizes() {
    let entries = corpus::entries();
    assert!(entries.len() >= 600, "{} files", entries.len());
    let batch = corpus::batch(&entries);
    assert!(batch.len() < 400_000, "{} bytes", batch.len());
    let files = reference::batch::split(&batch).expect("a whole batch");
    assert!(files.iter().zip(&entries).all(|(file, entry)| *file == entry.file));
    assert_eq!(files.len(), entries.len());
}

#[test]
fn names_tell_files_apart() {
    let entries = corpus::entries();
    let names: HashSet<&str> = entries.iter().map(|entry| entry.name.as_str()).collect();
    assert_eq!(names.len(), entries.len());
}

#[test]
fn pairs_stand_side_by_side() {
    let entries = corpus::entries();
    let pairs = entries.windows(2).filter(|two| two[1].name.ends_with(", the other"));
    let mut count = 0;
    for two in pairs {
        count += 1;
        assert_ne!(two[0].file, two[1].file, "{}", two[0].name);
        assert_eq!(two[0].file.len(), two[1].file.len(), "{}", two[0].name);
    }
    assert!(count >= 80, "{count} pairs");
}

#[test]
fn every_point_is_reached() {
    let coverage = Coverage::default();
    corpus::entries().iter().for_each(|entry| coverage.add(&entry.file));
    assert_eq!(coverage.missing(), []);
}

#[test]
fn every_mutant_prints_something_else() {
    let entries = corpus::entries();
    let told = |mutant| entries.iter().any(|entry| differs(&Wrong::new(mutant), &entry.file));
    let untold: Vec<Mutant> = MUTANTS.iter().copied().filter(|&mutant| !told(mutant)).collect();
    assert_eq!(untold, []);
}

#[test]
fn every_wrong_writer_prints_something_else() {
    let entries = corpus::entries();
    let told = |wrong: &WrongWriter| entries.iter().any(|entry| writer_search::differs(wrong, &entry.file));
    let untold: Vec<String> =
        wrong_writers::all().into_iter().filter(|wrong| !told(wrong)).map(|wrong| wrong.name).collect();
    assert_eq!(untold, [""; 0]);
}
