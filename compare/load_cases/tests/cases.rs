//! The cases are what the paper demands, fit the program that reads them, and
//! tell every wrong loader from the right one.

use generator::invalid;
use generator::random::Random;
use load_cases::{answer, cases, input, output, Answer};
use mutants::loader::PAPER;
use mutants::wrong_loaders;
use std::collections::HashSet;

/// The program in the gate reads this much of its input.
const MOST_INPUT: usize = 65_536;

/// And has this much room for a file.
const MOST_FILE: usize = 65_600;

#[test]
fn the_reference_gives_what_the_paper_demands() {
    for case in cases() {
        assert_eq!(answer(&case.file), case.demanded, "{}", case.name);
    }
}

#[test]
fn names_and_files_tell_cases_apart() {
    let cases = cases();
    let names: HashSet<&str> = cases.iter().map(|case| case.name.as_str()).collect();
    let files: HashSet<&[u8]> = cases.iter().map(|case| case.file.as_slice()).collect();
    assert_eq!(names.len(), cases.len());
    assert_eq!(files.len(), cases.len());
}

#[test]
fn the_program_can_read_them() {
    let cases = cases();
    let input = input(&cases);
    assert!(input.len() < MOST_INPUT, "{} bytes", input.len());
    assert_eq!(input.lines().count(), cases.len());
    assert_eq!(output(&cases).lines().count(), cases.len());
    assert!(cases.iter().all(|case| case.file.len() <= MOST_FILE));
}

#[test]
fn a_line_has_the_zeros_at_the_end_the_other_bytes_and_the_name() {
    let cases = cases();
    let input = input(&cases);
    for (line, case) in input.lines().zip(&cases) {
        let [zeros, hex, name] = line.splitn(3, ' ').collect::<Vec<_>>()[..] else { panic!("{line}") };
        let digits = |at: usize| u8::from_str_radix(&hex[at..at + 2], 16).expect("two digits");
        let mut file: Vec<u8> = (0..hex.len()).step_by(2).map(digits).collect();
        assert_ne!(file.last(), Some(&0), "{name}");
        file.resize(file.len() + zeros.parse::<usize>().expect("a number"), 0);
        assert_eq!((name, file), (case.name.as_str(), case.file.clone()));
    }
}

#[test]
fn every_answer_is_there_often() {
    let cases = cases();
    for demanded in (1..=7).map(Answer::Refused).chain([Answer::Loaded]) {
        let count = cases.iter().filter(|case| case.demanded == demanded).count();
        assert!(count >= 20, "{count} {demanded}");
    }
}

#[test]
fn the_right_loader_agrees_with_the_reference() {
    let agrees = |file: &[u8]| assert_eq!(Answer::from(PAPER.refusal(file)), answer(file), "{file:02x?}");
    cases().iter().for_each(|case| agrees(&case.file));
    for seed in 0..2000 {
        agrees(&generator::valid(seed));
        (1..=7).for_each(|refusal| agrees(&invalid::file(&mut Random::new(seed), refusal)));
    }
}

#[test]
fn every_wrong_loader_gives_another_answer() {
    let cases = cases();
    for wrong in wrong_loaders::all() {
        let told = cases.iter().any(|case| Answer::from(wrong.loader.refusal(&case.file)) != case.demanded);
        assert!(told, "check {}, {}: passes for the right one", wrong.check, wrong.says);
    }
}

#[test]
fn every_check_has_wrong_loaders() {
    let wrong = wrong_loaders::all();
    for check in 1..=7 {
        let count = wrong.iter().filter(|wrong| wrong.check == check).count();
        println!("{count} for check {check}");
        assert!(count >= 4, "{count} for check {check}");
    }
}
