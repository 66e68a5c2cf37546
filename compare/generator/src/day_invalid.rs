//! Days to be refused: a valid one, broken in one way.

use crate::days::day;
use crate::invalid::{break_code, break_count, break_label, break_record, field, patch};
use crate::random::Random;
use reference::day_script::{DayScript, JobEntry};
use reference::limits::{day_header, MAX_CODE, MAX_JOBS};
use reference::script::{Clauses, Input};

/// What a day can be refused with, but for 8 and 9, in the order of the checks.
pub const REFUSALS: [u8; 7] = [1, 2, 3, 4, 10, 6, 7];

/// A day that is refused with `refusal`, one of [`REFUSALS`].
pub fn file(random: &mut Random, refusal: u8) -> Vec<u8> {
    let mut day = day(random);
    match refusal {
        1 => {
            let length = if random.chance(95) { random.below(20) } else { 65_536 + random.below(3) };
            let mut file = day.bytes();
            file.resize(length, 0);
            file
        }
        2 => wrong_count(random, day.bytes()),
        3 => wrong_layout(random, day.bytes()),
        4 => wrong_labels(random, day),
        10 => {
            break_jobs(random, &mut day);
            day.bytes()
        }
        6 => {
            if day.records.is_empty() {
                add_record(&mut day);
            }
            break_record(random, &mut day.records, day.labels.len());
            day.bytes()
        }
        _ => {
            break_span(random, &mut day);
            day.bytes()
        }
    }
}

fn add_record(day: &mut DayScript) {
    day.records.push(Input::sealed(0, 1));
    day.jobs.iter_mut().for_each(|job| job.places = job.places.max(1));
}

fn wrong_count(random: &mut Random, mut file: Vec<u8>) -> Vec<u8> {
    match random.below(4) {
        0 => patch(&mut file, day_header::LABEL_COUNT, random.below(2)),
        1 => patch(&mut file, day_header::LABEL_COUNT, random.within(33, 65_535)),
        2 => patch(&mut file, day_header::RECORD_COUNT, random.within(65, 65_535)),
        _ => {
            let length = random.pick(&[0, 4097, 65_535]);
            patch(&mut file, day_header::CODE_LENGTH, length);
        }
    }
    file
}

fn wrong_layout(random: &mut Random, mut file: Vec<u8>) -> Vec<u8> {
    use day_header::*;
    let at = random.pick(&[LABELS_AT, RECORDS_AT, JOBS_AT, CODE_AT]);
    match random.below(4) {
        0 => patch(&mut file, at, random.below(20)),
        1 => {
            let right = field(&file, at);
            patch(&mut file, at, right + random.within(1, 12));
        }
        2 => {
            let right = field(&file, JOB_COUNT);
            patch(&mut file, JOB_COUNT, right + random.pick(&[1, 2, 16, 5_461, 5_462, 16_384, 65_000]));
        }
        _ if random.chance(50) => file.push(0),
        _ => drop(file.pop()),
    }
    file
}

fn wrong_labels(random: &mut Random, mut day: DayScript) -> Vec<u8> {
    if break_label(random, &mut day.labels) {
        return day.bytes();
    }
    let mut file = day.bytes();
    break_count(random, &mut file, day_header::LENGTH);
    file
}

fn break_jobs(random: &mut Random, day: &mut DayScript) {
    match random.below(8) {
        0 => day.jobs.clear(),
        1 => {
            let count = random.pick(&[MAX_JOBS + 1, MAX_JOBS + 2, 100]);
            day.jobs.resize(count, day.jobs[0]);
        }
        2 => {
            let at = random.below(day.jobs.len());
            day.labels.push(Clauses::new(&[0], &[]));
            day.labels.truncate(32);
            *day.labels.last_mut().expect("a label was pushed") = Clauses::new(&[0], &[]);
            day.labels[0] = Clauses::default();
            (day.jobs[at].label, day.jobs[at].clearance) = (day.labels.len() as u8 - 1, 0);
        }
        _ => {
            let at = random.below(day.jobs.len());
            let mut job = day.jobs[at];
            break_field(random, &mut job, day);
            day.jobs[at] = job;
        }
    }
}

fn break_field(random: &mut Random, job: &mut JobEntry, day: &DayScript) {
    let no_label = random.within(day.labels.len(), 255) as u8;
    let code = day.code.len() as u16;
    match random.below(10) {
        0 => job.caller = random.within(16, 255) as u8,
        1 => job.label = no_label,
        2 => job.clearance = no_label,
        3 => job.zero = random.within(1, 255) as u8,
        4 => job.steps = 0,
        5 if !day.records.is_empty() => job.places = random.below(day.records.len()) as u16,
        5 | 6 => job.places = random.within(257, 65_535) as u16,
        7 => job.code_length = 0,
        8 => job.code_length = code - job.code_at + random.within(1, 9) as u16,
        _ => job.code_at = random.within(code.into(), 65_535) as u16,
    }
}

/// Gives one job code that check 7 knows to be wrong. Other jobs keep theirs.
fn break_span(random: &mut Random, day: &mut DayScript) {
    let at = random.below(day.jobs.len());
    let job = day.jobs[at];
    let own = &day.code[job.code_at.into()..][..job.code_length.into()];
    let mut code = if day.code.len() + own.len() + 8 <= MAX_CODE { own.to_vec() } else { Vec::new() };
    break_code(random, &mut code, day.labels.len() as u8, day.records.len() as u8);
    if day.code.len() + code.len() <= MAX_CODE {
        (day.jobs[at].code_at, day.jobs[at].code_length) = day.add_code(&code);
    } else {
        // No room, so that the break goes to where the job's code is.
        day.code[usize::from(job.code_at)] = 0xFF;
    }
}
