//! The label and the clearance that runs end with, and whole views of some, worked out
//! here by hand.

use cases::days;
use reference::print;

const TRUE: &str = "ffffffffffffffffffffffffffffffffffffffffffffffffffffffffffffffff";
const PLAYER: &str = "aaaaaaaaaaaaaaaaaaaaaaaaaaaaaaaaaaaaaaaaaaaaaaaaaaaaaaaaaaaaaaaa";
const DEALER: &str = "cccccccccccccccccccccccccccccccccccccccccccccccccccccccccccccccc";
const CLEARANCE: &str = "8080808080808080808080808080808080808080808080808080808080808080";
const ZERO: &str = "0000000000000000000000000000000000000000000000000000000000000000";
/// The bytes of a field above a number of one byte.
const UPPER: &str = "00000000000000000000000000000000000000000000000000000000000000";
const SEVEN: &str = "0700000000000000000000000000000000000000000000000000000000000000";

/// The label that flows to no other of its file, and so is shown every run.
const ABOVE: usize = cases::label::ABOVE as usize;

fn lines(name: &str) -> Vec<String> {
    let case = cases::all().into_iter().find(|case| case.name == name).expect("a case of this name");
    print::lines(&case.file).lines().map(str::to_string).collect()
}

fn day_lines(name: &str) -> Vec<String> {
    let case = days::all().into_iter().find(|case| case.name == name).expect("a day of this name");
    print::day_lines(&case.file).lines().map(str::to_string).collect()
}

/// Secrecy of the label and of the clearance; no one vouches for either.
fn labels(line: &str) -> (&str, &str) {
    let fields: Vec<&str> = line.split(' ').collect();
    assert_eq!((fields[10], fields[12]), (TRUE, TRUE), "{line}");
    (fields[9], fields[11])
}

#[test]
fn runs_end_with_these_labels_and_clearances() {
    for (name, label, clearance) in [
        ("OPEN, shut out, is done by the handler", PLAYER, CLEARANCE),
        ("OPEN, shut out, without a fault", TRUE, TRUE),
        ("LOWER, shut out, is done by the handler", TRUE, PLAYER),
        ("LOWER, shut out, without a fault", TRUE, TRUE),
        ("lowered before TRY", TRUE, TRUE),
        ("30 gives the clearance back", TRUE, CLEARANCE),
        ("DONE keeps the lowered clearance", TRUE, PLAYER),
        ("END under a frame keeps the lowered clearance", TRUE, PLAYER),
        ("23 where the clearance is given back", PLAYER, CLEARANCE),
        ("OPEN's raise stays where the clearance is given back", PLAYER, CLEARANCE),
        ("uncaught under a lowered clearance", TRUE, PLAYER),
        ("uncaught once DONE has dropped the frame", TRUE, PLAYER),
        ("uncaught once the frame has caught", TRUE, PLAYER),
        ("spent under a lowered clearance", TRUE, PLAYER),
        ("spent as the clearance is given back", TRUE, CLEARANCE),
        ("two frames with two clearances", TRUE, CLEARANCE),
        ("the newer of two frames has the lowered clearance", TRUE, PLAYER),
        ("a frame in place of a dropped one", TRUE, CLEARANCE),
        ("a handler tries and lowers", DEALER, CLEARANCE),
        ("a handler lowers and tries", TRUE, PLAYER),
        ("a body opens what it was shut out of", PLAYER, CLEARANCE),
        ("a body's uncaught fault gives nothing back", TRUE, PLAYER),
        ("a body's fault, opened under the outer frame", TRUE, CLEARANCE),
        ("a spent body under a frame of its own", TRUE, PLAYER),
    ] {
        assert_eq!(labels(&lines(name)[ABOVE]), (label, clearance), "{name}");
    }
}

/// TRY, LAB, LOWER, INPUT, OPEN, POP, POP, INPUT, OPEN, END. The player is shown two of
/// its own records and two public ones; the public are shown these and nothing of the run.
#[test]
fn a_handler_opens_what_the_lowered_clearance_forbade() {
    let lines = lines("OPEN, shut out, is done by the handler");
    let public = format!("03 01 {TRUE} {TRUE} 0100 06{UPPER} {ZERO}");
    let sealed = format!("05 00 {TRUE} {TRUE} 0100 01{UPPER} {ZERO}");
    let zeros = [ZERO; 6].join(" ");
    assert_eq!(lines[0], format!("0000 0000 0000 0200 ce00 d601 0000 {zeros} {public} {sealed}"));
    let own = format!("00 00 {PLAYER} {TRUE} 0100 {SEVEN} {ZERO}");
    let reference = format!("02 01 {PLAYER} {TRUE} 0100 05{UPPER} {ZERO}");
    let run = format!("0100 {SEVEN} {ZERO} {PLAYER} {TRUE} {CLEARANCE} {TRUE}");
    let front = format!("0100 0a00 0700 0400 ce00 de02 {run}");
    assert_eq!(lines[2], format!("{front} {own} {reference} {public} {sealed}"));
}

/// LAB, LOWER, PUSH, THROW.
#[test]
fn an_uncaught_fault_is_shown_with_the_clearance_of_the_throw() {
    let line = &lines("uncaught under a lowered clearance")[0];
    let fault = format!("0500 1e{UPPER} 08{UPPER}");
    let front = format!("0200 0400 0700 0200 ce00 d601 {fault} {TRUE} {TRUE} {PLAYER} {TRUE} 03 01");
    assert!(line.starts_with(&front), "{line}");
}

#[test]
fn each_job_ends_with_its_own_clearance() {
    for (name, ends) in [
        (
            "each job has its own clearance back",
            &[(TRUE, TRUE), (PLAYER, CLEARANCE), (TRUE, PLAYER), (TRUE, PLAYER), (DEALER, CLEARANCE)][..],
        ),
        ("a job spent as its clearance is given back", &[(TRUE, CLEARANCE), (PLAYER, CLEARANCE)]),
        ("a frame's clearance is not kept", &[(TRUE, TRUE), (TRUE, TRUE), (DEALER, CLEARANCE)]),
        ("a job behind one that faulted lowered", &[(TRUE, TRUE), (PLAYER, CLEARANCE)]),
        ("33 gives the clearance back and not the label", &[(TRUE, CLEARANCE), (PLAYER, CLEARANCE)]),
    ] {
        let lines = day_lines(name);
        let shown = &lines[ABOVE * ends.len()..][..ends.len()];
        let found: Vec<_> = shown.iter().map(|line| labels(line)).collect();
        assert_eq!(found, ends, "{name}");
    }
}
