//! Every case gives what it must, and the paper's own give the whole views that
//! are worked out here by hand.

use cases::{all, paper, writing, Case, Expected};
use reference::file::File;
use reference::print;
use reference::rules::Paper;
use std::collections::HashSet;

#[test]
fn every_case_ends_as_expected() {
    for Case { name, file, expected } in [all(), writing::cases()].concat() {
        let found = match File::parse(&file) {
            Err(refusal) => Expected::Refused(refusal.number()),
            Ok(file) => Expected::Ends(reference::machine::run(&file, &Paper).ending),
        };
        assert_eq!(found, expected, "{name}");
    }
}

#[test]
fn names_tell_cases_apart() {
    let cases = all();
    let names: HashSet<&str> = cases.iter().map(|case| case.name.as_str()).collect();
    assert_eq!(names.len(), cases.len());
}

const TRUE: &str = "ffffffffffffffffffffffffffffffffffffffffffffffffffffffffffffffff";
const PLAYER: &str = "aaaaaaaaaaaaaaaaaaaaaaaaaaaaaaaaaaaaaaaaaaaaaaaaaaaaaaaaaaaaaaaa";
const BOTH: &str = "8888888888888888888888888888888888888888888888888888888888888888";
const BENCH: &str = "f0f0f0f0f0f0f0f0f0f0f0f0f0f0f0f0f0f0f0f0f0f0f0f0f0f0f0f0f0f0f0f0";
/// The secrecy of player, dealer and archive, and an integrity by bench, archive or record company.
const ALL_OF_THREE: &str = "0088008800880088008800880088008800880088008800880088008800880088";
const ANY_OF_THREE: &str = "f0fffffff0fffffff0fffffff0fffffff0fffffff0fffffff0fffffff0ffffff";
const ZERO: &str = "0000000000000000000000000000000000000000000000000000000000000000";
/// The bytes of a field above a number of one byte.
const UPPER: &str = "00000000000000000000000000000000000000000000000000000000000000";
const ONE: &str = "0100000000000000000000000000000000000000000000000000000000000000";
const TWO: &str = "0200000000000000000000000000000000000000000000000000000000000000";

#[test]
fn example() {
    let line = "0100 0200 0000 0000 ce00 ce00 0100 \
                0500000000000000000000000000000000000000000000000000000000000000 \
                0000000000000000000000000000000000000000000000000000000000000000 \
                ffffffffffffffffffffffffffffffffffffffffffffffffffffffffffffffff \
                ffffffffffffffffffffffffffffffffffffffffffffffffffffffffffffffff \
                0000000000000000000000000000000000000000000000000000000000000000 \
                ffffffffffffffffffffffffffffffffffffffffffffffffffffffffffffffff\n";
    assert_eq!(print::lines(&paper::example().file), line.repeat(2));
}

/// The record of P9 to P12, as a reader cleared for it sees it.
fn player_record() -> String {
    format!("00 00 {PLAYER} {TRUE} 0100 07{UPPER} {ZERO}")
}

#[test]
fn p9_faults_and_the_record_is_hidden_from_the_public() {
    let front = |shown: &str, length: &str| {
        format!("0200 0200 0100 {shown} ce00 {length} 0500 18{UPPER} {ONE} {TRUE} {TRUE} {TRUE} {TRUE}")
    };
    let public = front("0000", "ce00") + "\n";
    let player = format!("{} {}\n", front("0100", "5201"), player_record());
    assert_eq!(print::lines(&paper::p9().file), public.clone() + &public + &player);
}

#[test]
fn p10_seals_31_and_the_label_stays_public() {
    // LAB, BLOCK, POP, PUSH, END and the body's 3 steps; two places.
    let front = |shown: &str, length: &str| {
        format!("0100 0800 0200 {shown} ce00 {length} 0100 01{UPPER} {ZERO} {TRUE} {TRUE} {PLAYER} {TRUE}")
    };
    let outcome = format!("01 00 {TRUE} {TRUE} 0500 1f{UPPER} {ZERO}");
    let public = format!("{} {outcome}\n", front("0100", "5201"));
    let player = format!("{} {} {outcome}\n", front("0200", "d601"), player_record());
    assert_eq!(print::lines(&paper::p10().file), public + &player + &player);
}

#[test]
fn p11_is_spent_inside() {
    let front = |shown: &str, length: &str| {
        format!("0200 0300 0200 {shown} ce00 {length} 0500 20{UPPER} {ZERO} {TRUE} {TRUE} {PLAYER} {TRUE}")
    };
    let outcome = format!("01 00 {TRUE} {TRUE} 0500 20{UPPER} {ZERO}");
    let public = format!("{} {outcome}\n", front("0100", "5201"));
    let player = format!("{} {} {outcome}\n", front("0200", "d601"), player_record());
    assert_eq!(print::lines(&paper::p11().file), public + &player + &player);
}

#[test]
fn p12_is_spent_after_one_step() {
    let front = |shown: &str, length: &str| {
        format!("0300 0100 0100 {shown} ce00 {length} 0000 {ZERO} {ZERO} {TRUE} {TRUE} {TRUE} {TRUE}")
    };
    let public = front("0000", "ce00") + "\n";
    let player = format!("{} {}\n", front("0100", "5201"), player_record());
    assert_eq!(print::lines(&paper::p12().file), public.clone() + &public + &player);
}

/// The body opens a record of the player's and dealer's that no one vouches for; the
/// outcome, in place 2, bears the starting label, which flows to every reader.
#[test]
fn a_sealed_24_is_shown_with_its_half() {
    let name = "a sealed 24 of integrity";
    let case = all().into_iter().find(|case| case.name == name).expect("a case of this name");
    let start = format!("{PLAYER} {BENCH}");
    // CUR, BLOCK with its 9 steps, END.
    let front = |shown: &str, length: &str| {
        let result = format!("0300 {TWO} {ZERO}");
        format!("0100 0c00 0300 {shown} ce00 {length} {result} {start} {ALL_OF_THREE} {ANY_OF_THREE}")
    };
    let input = |head: &str, number: &str| format!("{head} {BOTH} {TRUE} 0100 {number}{UPPER} {ZERO}");
    let outcome = format!("02 00 {start} 0500 18{UPPER} {TWO}");
    let below = format!("{} {outcome}\n", front("0100", "5201"));
    let inputs = format!("{} {}", input("00 00", "07"), input("01 01", "08"));
    let above = format!("{} {inputs} {outcome}\n", front("0300", "5a02"));
    assert_eq!(print::lines(&case.file), below.clone() + &below + &above);
}
