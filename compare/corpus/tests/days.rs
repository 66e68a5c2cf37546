//! The corpus of days is large enough, small enough, and sees everything.

use corpus::days;
use generator::admission::{admitted, Declared};
use generator::day_coverage::DayCoverage;
use mutants::day_list::{DayMutant, DAY_MUTANTS};
use mutants::day_search::views;
use mutants::day_wrong::WrongDay;
use mutants::writer_search::differs_on_day;
use mutants::wrong_writers::{self, WrongWriter};
use reference::day::Day;
use reference::jobs::{self, Outcome};
use reference::rules::Paper;
use std::collections::HashSet;

#[test]
fn sizes() {
    let entries = days::entries();
    assert!(entries.len() >= 150, "{} days", entries.len());
    let batch = corpus::batch(&entries);
    assert!(batch.len() < 200_000, "{} bytes", batch.len());
    let files = reference::batch::split(&batch).expect("a whole batch");
    assert!(files.iter().zip(&entries).all(|(file, entry)| *file == entry.file));
    assert_eq!(files.len(), entries.len());
    let lines = days::expected(&entries);
    assert!(lines.len() < 5_000_000, "{} bytes", lines.len());
}

#[test]
fn names_tell_days_apart() {
    let entries = days::entries();
    let names: HashSet<&str> = entries.iter().map(|entry| entry.name.as_str()).collect();
    assert_eq!(names.len(), entries.len());
}

#[test]
fn pairs_stand_side_by_side() {
    let entries = days::entries();
    let mut count = 0;
    for two in entries.windows(2).filter(|two| two[1].name.ends_with(", the other")) {
        count += 1;
        assert_ne!(two[0].file, two[1].file, "{}", two[0].name);
        assert_eq!(two[0].file.len(), two[1].file.len(), "{}", two[0].name);
    }
    assert!(count >= 30, "{count} pairs");
}

#[test]
fn every_point_is_reached() {
    let coverage = DayCoverage::default();
    days::entries().iter().for_each(|entry| coverage.add(&entry.file));
    assert_eq!(coverage.missing(), []);
}

/// In hand-worked days too.
#[test]
fn jobs_are_skipped_by_the_papers_sentence() {
    for entry in days::entries() {
        let Ok(day) = Day::parse(&entry.file) else { continue };
        let declared = day.jobs(&Paper).map(|job| Declared { caller: job.caller, steps: job.steps });
        let expected = admitted(day.steps, &declared.collect::<Vec<_>>());
        let found = jobs::run(&day, &Paper).into_iter().map(|outcome| matches!(outcome, Outcome::Ran(_)));
        assert_eq!(found.collect::<Vec<_>>(), expected, "{}", entry.name);
    }
}

/// Mutants of check 9, which nothing that is printed hangs on.
const UNPRINTED: &[DayMutant] = &[
    DayMutant::LastViewChecked,
    DayMutant::FirstViewChecked,
    DayMutant::LongestViewChecked,
    DayMutant::SumWraps,
    DayMutant::OldWidthsChecked,
    DayMutant::RoomForOneMore,
    DayMutant::ByteBeforeCheck,
    DayMutant::ViewsBeforeCheck,
];

#[test]
fn every_other_mutant_prints_something_else() {
    let entries = days::entries();
    let told = |mutant| {
        entries.iter().any(|entry| {
            let labels = Day::parse_parts(&entry.file).map_or(0, |day| day.parts.labels().len());
            (0..labels).any(|reader| {
                views(&WrongDay::new(mutant), &entry.file, reader) != views(&Paper, &entry.file, reader)
            })
        })
    };
    let untold: Vec<DayMutant> = DAY_MUTANTS.iter().copied().filter(|&mutant| !told(mutant)).collect();
    assert_eq!(untold, UNPRINTED);
}

#[test]
fn every_wrong_writer_prints_something_else() {
    let entries = days::entries();
    let told = |wrong: &WrongWriter| entries.iter().any(|entry| differs_on_day(wrong, &entry.file));
    let untold: Vec<String> =
        wrong_writers::all().into_iter().filter(|wrong| !told(wrong)).map(|wrong| wrong.name).collect();
    assert_eq!(untold, [""; 0]);
}
