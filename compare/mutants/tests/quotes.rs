//! Every wrong quote is found out, and the right one answers as the reference does.

use cases::quotes;
use generator::{forward, paths, short, spending};
use mutants::quote_search::{differs, files_needed};
use mutants::quoter::PAPER;
use mutants::wrong_quotes;
use mutants::MOST_QUOTES;
use reference::file::File;
use reference::opcode::TRY;
use reference::{quote, Quote};
use std::collections::HashSet;

#[test]
fn the_right_quote_is_the_reference_s() {
    for case in quotes::all() {
        assert_eq!(PAPER.quote(&case.file), case.expected, "{}", case.name);
    }
    for case in cases::all() {
        assert_eq!(PAPER.quote(&case.file), quote(&case.file), "{}", case.name);
    }
    for seed in 0..MOST_QUOTES {
        let file = forward::any(seed);
        assert_eq!(PAPER.quote(&file), quote(&file), "seed {seed}");
    }
}

/// The three ways to work a quote out agree on all short code, and its runs keep to it.
#[test]
fn all_short_code() {
    let (mut quoted, mut refused, mut both_apply) = (0, 0, 0);
    for file in (1..=4).flat_map(short::files) {
        let found = quote(&file);
        assert_eq!(PAPER.quote(&file), found, "{file:02x?}");
        match found {
            Ok(most) => {
                quoted += 1;
                within(&file, most);
            }
            Err(11) => refused += 1,
            refusal => {
                assert_eq!(refusal, Err(7), "{file:02x?}");
                both_apply += u64::from(file.contains(&TRY));
            }
        }
    }
    assert!(quoted > 3_000 && refused > 10_000 && both_apply > 10_000, "{quoted} {refused} {both_apply}");
}

fn within(file: &[u8], most: Quote) {
    let code = File::parse(file).expect("a quoted file is valid").parts.code;
    assert_eq!(paths::quote(code, 16), Some(most), "{file:02x?}");
    let used = spending::used(file);
    assert!(used.steps <= most.steps && used.places <= most.places, "{file:02x?}");
}

#[test]
fn hand_worked_files_find_every_wrong_quote() {
    let cases = quotes::all();
    for wrong in wrong_quotes::all() {
        assert!(
            cases.iter().any(|case| differs(&wrong, &case.file)),
            "{} passes: {}",
            wrong.name,
            wrong.says
        );
    }
}

#[test]
fn generated_files_find_every_wrong_quote() {
    for wrong in wrong_quotes::all() {
        let needed = files_needed(&wrong, MOST_QUOTES);
        println!("{} {needed:?}", wrong.name);
        assert!(needed.is_some(), "{} passes: {}", wrong.name, wrong.says);
    }
}

#[test]
fn names_tell_wrong_quotes_apart() {
    let wrong = wrong_quotes::all();
    let names: HashSet<&str> = wrong.iter().map(|wrong| wrong.name).collect();
    assert_eq!(names.len(), wrong.len());
    assert!(wrong.len() >= 60, "{}", wrong.len());
}
