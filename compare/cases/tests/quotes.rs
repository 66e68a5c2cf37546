//! Every case is quoted, or refused, as it must be, and no run uses more.

use cases::quotes::{self, QuoteCase};
use cases::{days, Case};
use reference::file::File;
use reference::rules::Paper;
use reference::{machine, print, quote};
use std::collections::HashSet;

#[test]
fn every_case_is_quoted_as_expected() {
    for QuoteCase { name, file, expected } in quotes::all() {
        assert_eq!(quote(&file), expected, "{name}");
    }
}

#[test]
fn names_tell_cases_apart() {
    let cases = quotes::all();
    let names: HashSet<&str> = cases.iter().map(|case| case.name.as_str()).collect();
    assert_eq!(names.len(), cases.len());
}

#[test]
fn every_answer_is_there() {
    let cases = quotes::all();
    for refusal in (1..=7).chain([11]) {
        let count = cases.iter().filter(|case| case.expected == Err(refusal)).count();
        assert!(count >= 4, "{count} with {refusal}");
    }
    let quoted = cases.iter().filter(|case| case.expected.is_ok()).count();
    assert!(quoted >= 80, "{quoted}");
}

#[test]
fn the_printed_form() {
    for QuoteCase { name, file, expected } in quotes::all() {
        let line = match expected {
            Ok(quote) => format!("steps {} places {}\n", quote.steps, quote.places),
            Err(refusal) => format!("refused {refusal}\n"),
        };
        assert_eq!(print::quote_line(&file), line, "{name}");
    }
}

/// Steps used and places taken are within the quote, for all files that have one.
#[test]
fn no_run_uses_more() {
    let mut quoted = 0;
    let others = cases::all().into_iter().map(|Case { name, file, .. }| (name, file));
    for (name, file) in quotes::all().into_iter().map(|case| (case.name, case.file)).chain(others) {
        let Ok(quote) = quote(&file) else { continue };
        let file = File::parse(&file).expect("a quoted file is valid");
        let finished = machine::run(&file, &Paper);
        assert!(u32::from(finished.steps_used) <= quote.steps, "{name}");
        let taken = u32::from(finished.next_place) - file.parts.record_count() as u32;
        assert!(taken <= quote.places, "{name}");
        quoted += 1;
    }
    assert!(quoted > 300, "{quoted}");
}

/// What is refused to be read is refused to be quoted, with the same number.
#[test]
fn files_of_other_calls() {
    for Case { name, file, .. } in cases::all() {
        match File::parse(&file) {
            Err(refusal) => assert_eq!(quote(&file), Err(refusal.number()), "{name}"),
            Ok(_) => assert!(quote(&file).is_ok() || quote(&file) == Err(11), "{name}"),
        }
    }
    for case in days::all() {
        let refusal = File::parse(&case.file).expect_err("a day is no plain file");
        assert_eq!(quote(&case.file), Err(refusal.number()), "{}", case.name);
    }
}
