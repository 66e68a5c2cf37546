//! Refusals 1 to 4 and 6 of a day. For 7 see the code, for 10 the jobs.

use super::{day, ends, five, number, of, refused, refused_bytes, DayCase};
use crate::bounds::seventy_clauses;
use reference::limits::day_header::*;
use reference::limits::{input, MAX_CODE};
use reference::script::{Clauses, Input};

pub fn cases() -> Vec<DayCase> {
    [sizes(), counts(), offsets(), sums(), many_jobs(), labels(), records()].concat()
}

pub fn plain_day() -> Vec<u8> {
    of(&[five, five]).bytes()
}

/// The plain day with some 16-bit numbers of its header overwritten.
pub fn patched(name: impl Into<String>, refusal: u8, patches: &[(usize, u16)]) -> DayCase {
    let mut file = plain_day();
    for &(at, number) in patches {
        file[at..at + 2].copy_from_slice(&number.to_le_bytes());
    }
    refused_bytes(name, refusal, file)
}

fn sizes() -> Vec<DayCase> {
    let right = plain_day();
    let sized = |name: &str, refusal, length| {
        let mut file = right.clone();
        file.resize(length, 0);
        refused_bytes(name, refusal, file)
    };
    vec![
        sized("a day of 0 bytes", 1, 0),
        sized("a day of 16 bytes", 1, 16),
        sized("a day of 19 bytes", 1, 19),
        sized("a day of 20 bytes", 3, 20),
        sized("a day one byte too short", 3, right.len() - 1),
        sized("a day one byte too long", 3, right.len() + 1),
        sized("a day of 65,535 bytes", 3, 65_535),
        sized("a day of 65,536 bytes", 1, 65_536),
    ]
}

fn counts() -> Vec<DayCase> {
    let labels = |count| {
        let mut day = of(&[five]);
        day.records.clear();
        day.labels.resize(count, Clauses::new(&[3], &[4, 8]));
        day
    };
    let records = |count: u16| {
        let mut day = of(&[five]);
        day.records.resize(count.into(), Input::reference(2, 1));
        day.jobs[0].places = count;
        day
    };
    let code = |length| {
        let mut day = of(&[five]);
        day.code.resize(length, 0xFF);
        day
    };
    let mut no_code = day();
    no_code.jobs = of(&[five]).jobs;
    vec![
        refused("a day of 1 label", 2, &labels(1)),
        ends("a day of 2 labels", &[number(5)], &labels(2)),
        ends("a day of 32 labels", &[number(5)], &labels(32)),
        refused("a day of 33 labels", 2, &labels(33)),
        ends("a day of no records", &[number(5)], &records(0)),
        ends("a day of 64 records", &[number(5)], &records(64)),
        refused("a day of 65 records", 2, &records(65)),
        ends("a day of 4096 bytes of code", &[number(5)], &code(MAX_CODE)),
        refused("a day of 4097 bytes of code", 2, &code(MAX_CODE + 1)),
        refused("a day of no code", 2, &no_code),
        patched("a day of 65,535 labels", 2, &[(LABEL_COUNT, u16::MAX)]),
        patched("a day of 65,535 records", 2, &[(RECORD_COUNT, u16::MAX)]),
        patched("a day of 65,535 bytes of code", 2, &[(CODE_LENGTH, u16::MAX)]),
    ]
}

fn offsets() -> Vec<DayCase> {
    let file = plain_day();
    let mut cases = vec![patched("labels at a plain file's 16", 3, &[(LABELS_AT, 16)])];
    for (name, at) in [("labels", LABELS_AT), ("records", RECORDS_AT), ("jobs", JOBS_AT), ("code", CODE_AT)] {
        let right = u16::from_le_bytes([file[at], file[at + 1]]);
        for (shift, wrong) in
            [("one before", right - 1), ("one behind", right + 1), ("0", 0), ("65,535", u16::MAX)]
        {
            cases.push(patched(format!("a day's {name} offset {shift}"), 3, &[(at, wrong)]));
        }
    }
    // Records moved into the header, and everything behind them with them.
    let mut early = day();
    early.labels.clear();
    early.records.clear();
    super::add(&mut early, five);
    let mut file = early.bytes();
    file[LABEL_COUNT] = 2;
    for at in [RECORDS_AT, JOBS_AT, CODE_AT] {
        file[at] -= 1;
    }
    file.pop();
    cases.push(refused_bytes("a day's records offset 19", 3, file));
    cases
}

/// A header alone, or with a few zeros behind it.
fn header(numbers: [u16; 8], length: usize) -> Vec<u8> {
    let mut file: Vec<u8> = numbers.into_iter().flat_map(u16::to_le_bytes).collect();
    file.resize(length, 0);
    file
}

/// Offsets whose sums hold only modulo 2^16.
fn sums() -> Vec<DayCase> {
    let case = |name: &str, file| refused_bytes(name, 3, file);
    vec![
        case("a day's records offset + 6C past 65,535", header([2, 20, 1, 65_534, 1, 4, 5, 16], 21)),
        case("a day's jobs offset + 12J past 65,535", header([2, 20, 0, 65_530, 1, 65_530, 15, 6], 21)),
        case("a day's code offset + N past 65,535", header([2, 20, 0, 65_523, 1, 65_523, 22, 65_535], 21)),
    ]
}

/// Counts of jobs whose 12J is small modulo 2^16.
fn many_jobs() -> Vec<DayCase> {
    let file = plain_day();
    let jobs_at = u16::from_le_bytes([file[JOBS_AT], file[JOBS_AT + 1]]);
    let code = |jobs: u16| {
        let code_at = jobs_at.wrapping_add(jobs.wrapping_mul(12));
        [(JOB_COUNT, jobs), (CODE_AT, code_at), (CODE_LENGTH, file.len() as u16 - code_at)]
    };
    vec![
        // 12J is 0, 8 and -12 modulo 2^16.
        patched("16,384 jobs", 3, &code(16_384)),
        patched("5,462 jobs", 3, &code(5_462)),
        patched("65,535 jobs, code before the jobs", 3, &code(65_535)),
        patched("65,535 jobs", 3, &[(JOB_COUNT, u16::MAX)]),
        patched("a job more than there is room for", 3, &[(JOB_COUNT, 3)]),
        patched("a job fewer than there is room for", 3, &[(JOB_COUNT, 1)]),
        patched("no jobs where there is room for two", 3, &[(JOB_COUNT, 0)]),
    ]
}

fn labels() -> Vec<DayCase> {
    let entries = |name: &str, masks: Clauses| {
        let mut day = of(&[five]);
        day.labels[3] = masks;
        refused(name, 4, &day)
    };
    vec![
        entries("a day's clauses 40, C0", Clauses::new(&[64, 192], &[])),
        entries("a day's integrity clauses 80, 40", Clauses::new(&[], &[128, 64])),
        entries("a day's 71 clauses", Clauses::new(&[&seventy_clauses()[..], &[255]].concat(), &[])),
        entries("a day's clauses 01, 03", Clauses::new(&[1, 3], &[])),
        patched("a day's labels: one more than there is", 4, &[(LABEL_COUNT, 7)]),
        patched("a day's labels: one fewer than there are", 4, &[(LABEL_COUNT, 5)]),
    ]
}

fn records() -> Vec<DayCase> {
    let record = |name: &str, at: usize, byte: u8| {
        let mut file = plain_day();
        let records_at = usize::from(u16::from_le_bytes([file[RECORDS_AT], file[RECORDS_AT + 1]]));
        file[records_at + at] = byte;
        refused_bytes(name, 6, file)
    };
    let last = 6 * input::LENGTH;
    vec![
        record("a day's record of kind 2", input::KIND, 2),
        record("a day's last record of kind 255", last + input::KIND, 255),
        record("a day's record with label index L", input::LABEL, 6),
        record("a day's last record with label index 255", last + input::LABEL, 255),
    ]
}
