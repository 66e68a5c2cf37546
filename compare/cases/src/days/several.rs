//! Two reasons to refuse at once: the first in the order 1 2 3 4 10 6 7 counts.

use super::jobs::seventeen;
use super::refusals::{patched, plain_day};
use super::{add_bytes, day, five, of, refused, refused_bytes, DayCase};
use reference::day_script::DayScript;
use reference::limits::day_header::*;
use reference::opcode::POP;
use reference::script::Clauses;

pub fn cases() -> Vec<DayCase> {
    [of_the_header(), of_the_sections()].concat()
}

fn of_the_header() -> Vec<DayCase> {
    let mut short = plain_day();
    short.truncate(19);
    short[LABEL_COUNT] = 1;
    let mut long = plain_day();
    long.resize(65_536, 0);
    long[LABEL_COUNT] = 1;
    let mut no_jobs = day();
    no_jobs.code = vec![0xFF];
    no_jobs.labels.truncate(1);
    let mut shifted = seventeen().bytes();
    shifted.push(0);
    vec![
        refused_bytes("1 before 2, too short", 1, short),
        refused_bytes("1 before 2, too long", 1, long),
        patched("2 before 3, of a day", 2, &[(LABEL_COUNT, 1), (LABELS_AT, 16)]),
        refused("2 before 10, no jobs", 2, &no_jobs),
        patched("2 before 10, 65,535 jobs", 2, &[(CODE_LENGTH, 0), (JOB_COUNT, u16::MAX)]),
        patched("3 before 4, of a day", 3, &[(LABEL_COUNT, 7), (LABELS_AT, 21)]),
        patched("3 before 10, no jobs", 3, &[(JOB_COUNT, 0)]),
        refused_bytes("3 before 10, 17 jobs", 3, shifted),
    ]
}

/// What is wrong with a day for one reason alone.
fn bad_labels(day: &mut DayScript) {
    day.labels[5] = Clauses::new(&[], &[64, 64]);
}

fn bad_field(day: &mut DayScript) {
    day.jobs[1].caller = 16;
}

fn bad_start(day: &mut DayScript) {
    (day.jobs[1].label, day.jobs[1].clearance) = (2, 0);
}

fn no_jobs(day: &mut DayScript) {
    day.jobs.clear();
}

fn bad_record(day: &mut DayScript) {
    day.records[6].kind = 2;
}

fn bad_code(day: &mut DayScript) {
    day.code[0] = 0xFF;
}

fn of_the_sections() -> Vec<DayCase> {
    type Change = fn(&mut DayScript);
    let both = |name: &str, refusal, one: Change, other: Change| {
        let mut day = of(&[five, five]);
        one(&mut day);
        other(&mut day);
        refused(name, refusal, &day)
    };
    let mut all = of(&[five]);
    add_bytes(&mut all, &[POP]);
    bad_field(&mut all);
    bad_record(&mut all);
    vec![
        both("4 before 10, for a field", 4, bad_labels, bad_field),
        both("4 before 10, no jobs", 4, bad_labels, no_jobs),
        both("4 before 10, for a start", 4, bad_labels, bad_start),
        both("4 before 6, of a day", 4, bad_labels, bad_record),
        both("4 before 7, of a day", 4, bad_labels, bad_code),
        both("10 before 6, for a field", 10, bad_field, bad_record),
        both("10 before 6, no jobs", 10, no_jobs, bad_record),
        both("10 before 6, for a start", 10, bad_start, bad_record),
        both("10 before 7, for a field", 10, bad_field, bad_code),
        both("10 before 7, for a start", 10, bad_start, bad_code),
        both("6 before 7, of a day", 6, bad_record, bad_code),
        refused("10 before 6 and 7", 10, &all),
    ]
}
