//! Old files and days give views of eight principals that tell what those of six do.

use generator::old;
use old_files::{is_old, widen, Comparison, Kind};
use reference::limits::MAX_VIEW;

const FILES: u64 = 2_000;
const DAYS: u64 = 500;

#[test]
fn generated_files() {
    let mut comparison = Comparison::default();
    (0..FILES).for_each(|seed| comparison.add(Kind::Plain, &old::file(seed)));
    assert_eq!((comparison.files, comparison.differences), (FILES, 0));
    // Most of them load.
    assert!(comparison.refused > 0 && comparison.refused < FILES / 10, "{comparison:?}");
}

#[test]
fn generated_days() {
    let mut comparison = Comparison::default();
    (0..DAYS).for_each(|seed| comparison.add(Kind::Day, &old::day(seed)));
    assert_eq!((comparison.files, comparison.refused, comparison.differences), (DAYS, 0, 0));
}

#[test]
fn hand_worked_files_and_days() {
    let mut comparison = Comparison::default();
    let files: Vec<Vec<u8>> = cases::all().into_iter().map(|case| case.file).collect();
    let days: Vec<Vec<u8>> = cases::days::all().into_iter().map(|case| case.file).collect();
    for (kind, files) in [(Kind::Plain, files), (Kind::Day, days)] {
        files.iter().filter(|file| is_old(kind, file)).for_each(|file| comparison.add(kind, file));
    }
    assert!(comparison.files > 400, "{comparison:?}");
    assert_eq!(comparison.differences, 0);
}

/// The repository's examples are from before, too.
#[test]
fn examples() {
    let files: [&[u8]; 3] = [
        include_bytes!("../../../examples/compare_presets.script"),
        include_bytes!("../../../examples/crash_count.script"),
        include_bytes!("../../../examples/demo_set.script"),
    ];
    let mut comparison = Comparison::default();
    files.iter().for_each(|file| comparison.add(Kind::Plain, file));
    comparison.add(Kind::Day, include_bytes!("../../../examples/counter_day.day"));
    assert_eq!((comparison.files, comparison.refused, comparison.differences), (4, 0, 0));
}

#[test]
fn generated_files_are_old() {
    for seed in 0..FILES {
        assert!(is_old(Kind::Plain, &old::file(seed)), "seed {seed}");
        assert!(is_old(Kind::Day, &old::day(seed)), "seed {seed}");
    }
}

/// The line that the paper gives, before and after.
#[test]
fn the_example() {
    let old = "0100 0200 0000 0000 3e00 3e00 0100 0500000000000000 0000000000000000 \
               ffffffffffffffff ffffffffffffffff 0000000000000000 ffffffffffffffff";
    let digits: String = old.split(' ').collect();
    let byte = |at: usize| u8::from_str_radix(&digits[at..at + 2], 16).expect("two digits");
    let old: Vec<u8> = (0..digits.len()).step_by(2).map(byte).collect();
    let mut six = [0; MAX_VIEW];
    let file = cases::paper::example().file;
    assert_eq!(reference_six::read(&file, 0, &mut six), Ok(62));
    assert_eq!(six[..62], old);
    let mut eight = [0; MAX_VIEW];
    assert_eq!(reference::read(&file, 0, &mut eight), Ok(206));
    assert_eq!(eight[..206], widen::view(&old));
}

/// The wider view takes room that the old one did not.
#[test]
fn room_for_the_old_view_is_too_short() {
    let file = cases::paper::example().file;
    assert_eq!(reference_six::read(&file, 0, &mut [0; 62]), Ok(62));
    assert_eq!(reference::read(&file, 0, &mut [0; 62]), Err(9));
    assert_eq!(reference::read(&file, 0, &mut [0; 205]), Err(9));
    assert_eq!(reference::read(&file, 0, &mut [0; 206]), Ok(206));
}

/// Masks and clauses that only eight principals have.
#[test]
fn what_six_refuse_and_eight_take() {
    for case in cases::parties::cases() {
        let answers = Kind::Plain.reads().map(|read| read(&case.file, 0, &mut [0; MAX_VIEW]).err());
        assert_eq!(answers, [Some(4), None], "{}", case.name);
    }
}

/// A call that leaves the old widths, or takes a word for another, is told.
#[test]
fn a_view_that_is_not_widened_is_told() {
    let mut comparison = Comparison::default();
    let file = cases::paper::example().file;
    comparison.add_by(Kind::Plain, [reference_six::read; 2], &file);
    // Two labels, and an index that is none.
    assert_eq!((comparison.reads, comparison.differences), (3, 2));
}
