//! Refusal 10: the count of jobs, and every field of a job at and past its limit.

use super::{day, ends, five, number, of, refused, DayCase, INPUTS};
use crate::label;
use reference::day_script::{DayScript, JobEntry};
use reference::limits::MAX_JOBS;
use reference::script::{Clauses, Code};

pub fn cases() -> Vec<DayCase> {
    [counts(), fields(), indices(), spans(), starts()].concat()
}

fn counts() -> Vec<DayCase> {
    let mut none = day();
    none.code = vec![0];
    vec![
        refused("0 jobs", 10, &none),
        ends("1 job", &[number(5)], &fives(1)),
        ends("16 jobs", &[number(5); MAX_JOBS], &fives(MAX_JOBS)),
        refused("17 jobs", 10, &seventeen()),
        refused("300 jobs", 10, &{
            let mut day = seventeen();
            day.jobs.resize(300, day.jobs[0]);
            day
        }),
    ]
}

/// So many jobs that give 5.
fn fives(count: usize) -> DayScript {
    of(&vec![five as fn(&mut Code); count])
}

/// As callers end at 15, the seventeenth job is a first caller's.
pub fn seventeen() -> DayScript {
    let mut day = fives(MAX_JOBS);
    day.jobs.push(day.jobs[0]);
    day
}

/// A field set in the first, a middle and the last of 16 jobs.
fn field(name: &str, set: fn(&mut JobEntry)) -> Vec<DayCase> {
    let wrong = |which: &str, at: usize| {
        let mut day = fives(MAX_JOBS);
        set(&mut day.jobs[at]);
        refused(format!("{name}, of the {which} job"), 10, &day)
    };
    vec![wrong("first", 0), wrong("ninth", 8), wrong("last", MAX_JOBS - 1)]
}

fn taken(name: &str, set: fn(&mut JobEntry)) -> DayCase {
    let mut day = of(&[five, five]);
    set(&mut day.jobs[1]);
    ends(name, &[number(5), number(5)], &day)
}

fn fields() -> Vec<DayCase> {
    let mut cases = vec![
        taken("caller 15", |job| job.caller = 15),
        taken("one caller twice", |job| job.caller = 0),
        taken("a job's last label as its start", |job| job.label = label::VOUCHED),
        taken("65,535 steps for a job", |job| job.steps = u16::MAX),
        taken("2 steps for a job", |job| job.steps = 2),
        taken("as many places for a job as there are inputs", |job| job.places = INPUTS),
        taken("256 places for a job", |job| job.places = 256),
    ];
    cases.extend(field("caller 16", |job| job.caller = 16));
    cases.extend(field("caller 255", |job| job.caller = 255));
    cases.extend(field("start label L", |job| job.label = 6));
    cases.extend(field("start label 255", |job| job.label = 255));
    cases.extend(field("clearance L", |job| job.clearance = 6));
    cases.extend(field("clearance 255", |job| job.clearance = 255));
    cases.extend(field("zero byte 1", |job| job.zero = 1));
    cases.extend(field("zero byte 128", |job| job.zero = 128));
    cases.extend(field("0 steps for a job", |job| job.steps = 0));
    cases.extend(field("fewer places than inputs", |job| job.places = INPUTS - 1));
    cases.extend(field("0 places where there are inputs", |job| job.places = 0));
    cases.extend(field("257 places for a job", |job| job.places = 257));
    cases.extend(field("65,535 places for a job", |job| job.places = u16::MAX));
    cases
}

/// Label indices L where what stands behind the labels reads as a public one: the
/// first record is sealed and its label is 0, so that it begins with two zeros.
fn indices() -> Vec<DayCase> {
    let wrong = |name: &str, set: fn(&mut JobEntry)| {
        let mut day = of(&[five]);
        day.records[0].label = label::PUBLIC;
        set(&mut day.jobs[0]);
        refused(name, 10, &day)
    };
    vec![
        wrong("start label L before a public record", |job| job.label = 6),
        wrong("clearance L before a public record", |job| job.clearance = 6),
        wrong("both labels L before a public record", |job| (job.label, job.clearance) = (6, 6)),
    ]
}

/// Each job of [`fields`]' days has 6 bytes of code, so that there are 96.
fn spans() -> Vec<DayCase> {
    let mut cases = vec![taken("another job's span", |job| job.code_at = 0)];
    cases.extend(field("a span of 0 bytes", |job| job.code_length = 0));
    cases.extend(field("a span of 0 bytes at the code's end", |job| {
        (job.code_at, job.code_length) = (96, 0);
    }));
    cases.extend(field("a span one byte past the code", |job| job.code_at = 91));
    cases.extend(field("a span that starts at the code's end", |job| {
        (job.code_at, job.code_length) = (96, 1);
    }));
    cases.extend(field("a span of 65,535 bytes", |job| job.code_length = u16::MAX));
    // Modulo 2^16 these end within the code.
    cases.extend(field("a span that starts at 65,535", |job| job.code_at = u16::MAX));
    cases.extend(field("a span that ends past 65,535", |job| {
        (job.code_at, job.code_length) = (6, u16::MAX);
    }));
    cases
}

fn starts() -> Vec<DayCase> {
    let mut cases = vec![
        taken("a start equal to the clearance", |job| {
            (job.label, job.clearance) = (label::PLAYER, label::PLAYER);
        }),
        taken("a vouched start and a public clearance", |job| {
            (job.label, job.clearance) = (label::VOUCHED, label::PUBLIC);
        }),
        taken("everything as the clearance", |job| job.clearance = label::ABOVE),
    ];
    cases.extend(field("a start above its clearance", |job| {
        (job.label, job.clearance) = (label::PLAYER, label::PUBLIC);
    }));
    cases.extend(field("a start beside its clearance", |job| {
        (job.label, job.clearance) = (label::PLAYER, label::DEALER);
    }));
    cases.extend(field("a start less vouched for than its clearance", |job| job.clearance = label::VOUCHED));
    // Check 5 of plain files is not a day's.
    let mut day = of(&[five]);
    day.labels.swap(0, 1);
    (day.jobs[0].label, day.jobs[0].clearance) = (1, 0);
    cases.push(ends("label 0 does not flow to label 1", &[number(5)], &day));
    let mut day = of(&[five]);
    day.labels.push(Clauses::new(&[0], &[]));
    day.jobs[0].clearance = 6;
    cases.push(ends("the last label as clearance", &[number(5)], &day));
    cases
}
