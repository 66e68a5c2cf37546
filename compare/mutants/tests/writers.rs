//! Every wrong writer is found out, and the right one prints as the reference does.

use cases::{days, writing, Case};
use mutants::writer::PAPER;
use mutants::writer_search::{differs, differs_on_day, files_needed};
use mutants::{wrong_writers, MOST_WRITTEN};
use reference::print;
use std::collections::HashSet;

fn hand_worked() -> Vec<Case> {
    [cases::all(), writing::cases()].concat()
}

#[test]
fn the_right_writer_prints_what_the_reference_does() {
    let agree =
        |file: &[u8], what: &str| assert_eq!(print::lines_by(&PAPER, file), print::lines(file), "{what}");
    let agree_on_day = |file: &[u8], what: &str| {
        assert_eq!(print::day_lines_by(&PAPER, file), print::day_lines(file), "{what}")
    };
    hand_worked().iter().for_each(|case| agree(&case.file, &case.name));
    days::all().iter().for_each(|case| agree_on_day(&case.file, &case.name));
    for seed in 0..1_000 {
        agree(&generator::valid(seed), &format!("seed {seed}"));
        agree_on_day(&generator::days::valid(seed), &format!("day of seed {seed}"));
    }
}

#[test]
fn hand_worked_files_find_every_wrong_writer() {
    let cases = hand_worked();
    for wrong in wrong_writers::all() {
        let told = cases.iter().any(|case| differs(&wrong, &case.file));
        assert!(told, "{} passes: {}", wrong.name, wrong.says);
    }
}

/// No byte of a number in these can be taken for another.
#[test]
fn one_file_and_one_day_find_every_wrong_writer() {
    let (file, day) = (writing::spent().file, writing::day().file);
    for wrong in wrong_writers::all() {
        assert!(differs(&wrong, &file), "{} passes: {}", wrong.name, wrong.says);
        assert!(differs_on_day(&wrong, &day), "{} passes on a day: {}", wrong.name, wrong.says);
    }
}

#[test]
fn generated_files_find_every_wrong_writer() {
    for wrong in wrong_writers::all() {
        let needed = files_needed(&wrong, MOST_WRITTEN);
        println!("{} {needed:?}", wrong.name);
        assert!(needed.is_some(), "{} passes: {}", wrong.name, wrong.says);
    }
}

#[test]
fn names_tell_wrong_writers_apart() {
    let wrong = wrong_writers::all();
    let names: HashSet<&str> = wrong.iter().map(|wrong| wrong.name.as_str()).collect();
    assert_eq!(names.len(), wrong.len());
    assert!(wrong.len() >= 40, "{}", wrong.len());
}
