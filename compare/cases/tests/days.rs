//! Every day gives what it must, and some give the whole views that are worked
//! out here by hand.

use cases::days::{self, DayCase, Expected, JobEnds};
use cases::{writing, Case};
use reference::day::Day;
use reference::day_script::{DayScript, JobEntry};
use reference::file::File;
use reference::jobs::{run, Outcome};
use reference::limits::{day_header, header, view, MAX_DAY};
use reference::rules::Paper;
use reference::{print, read_day};
use std::collections::HashSet;

fn found(file: &[u8]) -> Expected {
    let day = match Day::parse(file) {
        Err(refusal) => return Expected::Refused(refusal.number()),
        Ok(day) => day,
    };
    let ends = |outcome: Outcome| match outcome {
        Outcome::Ran(finished) => JobEnds::Ends(finished.ending),
        Outcome::Skipped(_) => JobEnds::Skipped,
    };
    Expected::Jobs(run(&day, &Paper).into_iter().map(ends).collect())
}

#[test]
fn every_day_ends_as_expected() {
    for DayCase { name, file, expected } in days::all().into_iter().chain([writing::day()]) {
        assert_eq!(found(&file), expected, "{name}");
    }
}

#[test]
fn the_example_prints_its_lines() {
    let day = include_bytes!("../../../examples/counter_day.day");
    assert_eq!(print::day_lines(day), include_str!("../../../examples/counter_day.expected"));
}

#[test]
fn names_tell_days_apart() {
    let cases = days::all();
    let names: HashSet<&str> = cases.iter().map(|case| case.name.as_str()).collect();
    assert_eq!(names.len(), cases.len());
}

/// The plain file as a day of one job that has all its code.
fn as_day(file: &[u8]) -> Vec<u8> {
    let field = |at: usize| u16::from_le_bytes([file[at], file[at + 1]]);
    let (records_at, code_at) = (field(header::RECORDS_AT), field(header::CODE_AT));
    let job = JobEntry {
        caller: 3,
        label: 0,
        clearance: 1,
        zero: 0,
        steps: field(header::STEPS),
        places: field(header::PLACES),
        code_at: 0,
        code_length: field(header::CODE_LENGTH),
    };
    let empty = DayScript { jobs: vec![job], steps: job.steps.into(), ..DayScript::default() };
    let entry = &empty.bytes()[day_header::LENGTH..];
    let mut day = Vec::new();
    let shifted = [records_at + 4, 1, code_at + 4, field(header::CODE_LENGTH), code_at + 16];
    for number in [field(header::LABEL_COUNT), 20, field(header::RECORD_COUNT)].into_iter().chain(shifted) {
        day.extend(number.to_le_bytes());
    }
    day.extend(u32::from(job.steps).to_le_bytes());
    day.extend(&file[header::LENGTH..code_at.into()]);
    day.extend(entry);
    day.extend(&file[code_at.into()..]);
    day
}

#[test]
fn a_day_of_one_job_prints_what_the_plain_file_does() {
    let mut count = 0;
    for Case { name, file, .. } in cases::all() {
        if File::parse(&file).is_ok() {
            count += 1;
            assert_eq!(print::day_lines(&as_day(&file)), print::lines(&file), "{name}");
        }
    }
    assert!(count > 200, "{count}");
}

#[test]
fn a_plain_file_is_no_day_and_a_day_no_plain_file() {
    for case in cases::all() {
        assert!(Day::parse(&case.file).is_err(), "{}", case.name);
    }
    for case in days::all() {
        assert!(File::parse(&case.file).is_err(), "{}", case.name);
    }
}

const TRUE: &str = "ffffffffffffffffffffffffffffffffffffffffffffffffffffffffffffffff";
const PLAYER: &str = "aaaaaaaaaaaaaaaaaaaaaaaaaaaaaaaaaaaaaaaaaaaaaaaaaaaaaaaaaaaaaaaa";
const CLEARANCE: &str = "8080808080808080808080808080808080808080808080808080808080808080";
const ZERO: &str = "0000000000000000000000000000000000000000000000000000000000000000";
/// The bytes of a field above a number of one byte.
const UPPER: &str = "00000000000000000000000000000000000000000000000000000000000000";
const BENCH: &str = "f0f0f0f0f0f0f0f0f0f0f0f0f0f0f0f0f0f0f0f0f0f0f0f0f0f0f0f0f0f0f0f0";
const BENCH_AND_ARCHIVE: &str = "00f000f000f000f000f000f000f000f000f000f000f000f000f000f000f000f0";
/// The secrecy of player, dealer and archive, and an integrity by bench, archive or record company.
const ALL_OF_THREE: &str = "0088008800880088008800880088008800880088008800880088008800880088";
const ANY_OF_THREE: &str = "f0fffffff0fffffff0fffffff0fffffff0fffffff0fffffff0fffffff0ffffff";

fn lines(name: &str) -> Vec<String> {
    let case = days::all().into_iter().find(|case| case.name == name).expect("a case of this name");
    print::day_lines(&case.file).lines().map(str::to_string).collect()
}

#[test]
fn a_skipped_job_is_shown_alike_to_all() {
    let skipped = format!("0400 0000 0000 0000 ce00 ce00 0000 {ZERO} {ZERO} {ZERO} {ZERO} {ZERO} {ZERO}");
    let lines = lines("views of different lengths");
    assert_eq!(lines.len(), 6 * 4);
    for (at, line) in lines.iter().enumerate() {
        assert_eq!(*line == skipped, at % 4 == 2, "line {at}");
    }
}

/// The front of a view whose result is the number 5.
fn five(steps: &str, next: &str, shown: &str, length: &str) -> String {
    let result = format!("0100 05{UPPER} {ZERO}");
    format!("0100 {steps} {next} {shown} ce00 {length} {result} {TRUE} {TRUE} {CLEARANCE} {TRUE}")
}

/// Public is shown two of the input records, and what job 1 left in one of them.
#[test]
fn a_handle_is_33_in_the_next_view() {
    let lines = lines("a sealed handle to place C");
    let sealed = format!("05 00 {TRUE} {TRUE} 0100 01{UPPER} {ZERO}");
    let reference = format!("03 01 {TRUE} {TRUE}");
    let new = format!("07 00 {TRUE} {TRUE} 0100 01{UPPER} {ZERO}");
    let front = five("0700", "0800", "0300", "5a02");
    assert_eq!(lines[0], format!("{front} {reference} 0300 07{UPPER} {ZERO} {sealed} {new}"));
    let fault = format!("0500 21{UPPER} {ZERO}");
    let front = format!("0200 0200 0700 0200 ce00 d601 {fault} {TRUE} {TRUE} {CLEARANCE} {TRUE}");
    assert_eq!(lines[1], format!("{front} {reference} {fault} {sealed}"));
}

/// A job that reads the player's 33 ends with the player's label, which the
/// public reader is not shown.
#[test]
fn a_hidden_33_hides_the_run() {
    let lines = lines("33 in a record above the clearance of most");
    assert!(lines[1].starts_with(&format!("0000 0000 0000 0200 ce00 d601 0000 {ZERO}")));
    // The reader ABOVE is shown everything, the first job's one new record too.
    assert!(lines[8].starts_with("0100 0700 0800 0800"));
    let front = format!("0200 0200 0700 0700 ce00 6a04 0500 21{UPPER} {ZERO} {ZERO} {TRUE} {ZERO} {TRUE}");
    assert!(lines[9].starts_with(&front), "{}", lines[9]);
}

/// The job cannot lower its clearance to what is less secret and better vouched for;
/// the records are labelled so, and flow to every reader. The run does not flow to the
/// last one, which reads with that label.
#[test]
fn a_25_is_shown_with_both_halves() {
    let records = ["00 00", "01 01"].map(|head| format!("{head} {TRUE} {BENCH_AND_ARCHIVE} 0100"));
    let records = format!("{} 07{UPPER} {ZERO} {} 08{UPPER} {ZERO}", records[0], records[1]);
    let fault = format!("0500 19{UPPER} 03{UPPER}");
    let labels = format!("{PLAYER} {BENCH} {ALL_OF_THREE} {ANY_OF_THREE}");
    let shown = format!("0200 0200 0200 0200 ce00 d601 {fault} {labels} {records}");
    let zeros = [ZERO; 6].join(" ");
    let hidden = format!("0000 0000 0000 0200 ce00 d601 0000 {zeros} {records}");
    assert_eq!(lines("25 of both halves, shown"), [shown.clone(), shown, hidden]);
}

/// The last reader, vouched for by the bench, is not shown a public run.
#[test]
fn steps_used_are_the_job_s_own() {
    for line in &lines("steps used are the job's own")[..10] {
        assert!(line.starts_with("0100 0200 0700"), "{line}");
    }
}

/// READ of the player's 33, caught: the player is shown the label that it raised.
#[test]
fn a_read_that_threw_has_raised() {
    let front = format!("0100 0900 0700 0400 ce00 de02 0100 {ZERO} {ZERO} {PLAYER} {TRUE}");
    let line = &lines("READ raises, then throws 33")[2 * 2 + 1];
    assert!(line.starts_with(&front), "{line}");
}

#[test]
fn check_9_is_on_the_sum() {
    let long = days::views::long().bytes();
    for file in [days::views::lengths().bytes(), long] {
        let day = Day::parse(&file).expect("a valid day");
        for reader in 0..day.parts.labels().len() {
            let mut whole = vec![0xEE; MAX_DAY];
            let length = read_day(&file, reader, &mut whole).expect("the longest buffer");
            assert!(whole[length..].iter().all(|&byte| byte == 0xEE));
            let shortest = [0, 1, 205, 206, length - 206, length / 2, length % 65_536, length - 1];
            for size in shortest.into_iter().filter(|&size| size < length) {
                let mut buffer = vec![0xEE; size];
                assert_eq!(read_day(&file, reader, &mut buffer), Err(9), "{size} of {length}");
                assert!(buffer.iter().all(|&byte| byte == 0xEE), "{size} of {length}");
            }
            for size in [length, length + 1, length + 100] {
                let mut buffer = vec![0xEE; size];
                assert_eq!(read_day(&file, reader, &mut buffer), Ok(length));
                assert_eq!(buffer[..length], whole[..length]);
                assert!(buffer[length..].iter().all(|&byte| byte == 0xEE));
            }
        }
    }
}

#[test]
fn the_sum_may_pass_65_535() {
    let mut buffer = vec![0; MAX_DAY];
    assert_eq!(read_day(&days::views::long().bytes(), 0, &mut buffer), Ok(2 * 33_998));
}

/// Each view says where the next one starts.
#[test]
fn views_stand_end_to_end() {
    for case in days::all() {
        let Expected::Jobs(jobs) = &case.expected else { continue };
        let mut buffer = vec![0; MAX_DAY];
        let length = read_day(&case.file, 0, &mut buffer).expect("a valid day");
        let mut at = 0;
        for _ in jobs {
            at += usize::from(u16::from_le_bytes([buffer[at + view::LENGTH], buffer[at + view::LENGTH + 1]]));
        }
        assert_eq!(at, length, "{}", case.name);
    }
}

#[test]
fn a_bad_reader_is_refused_before_a_short_buffer_and_after_bad_code() {
    let file = days::views::lengths().bytes();
    for reader in [6, 7, 32, 255, 256, usize::MAX] {
        assert_eq!(read_day(&file, reader, &mut []), Err(8));
    }
    assert_eq!(read_day(&file, 5, &mut []), Err(9));
    let mut bad = file.clone();
    *bad.last_mut().unwrap() = 0xFF;
    assert_eq!(read_day(&bad, usize::MAX, &mut []), Err(7));
}
