//! Hand-worked days, each with the refusal or the endings that the papers demand.

pub mod admission;
pub mod callers;
pub mod clearances;
pub mod code;
pub mod halves;
pub mod handles;
pub mod jobs;
pub mod parties;
pub mod refusals;
pub mod several;
pub mod store;
pub mod views;

use crate::{label, FREE_PLACES};
use reference::day_script::{DayScript, JobEntry};
use reference::script::Code;
use reference::value::{Ending, Fault, Value};

#[derive(Clone, Debug)]
pub struct DayCase {
    pub name: String,
    pub file: Vec<u8>,
    pub expected: Expected,
}

#[derive(Clone, Debug, PartialEq, Eq)]
pub enum Expected {
    Refused(u8),
    Jobs(Vec<JobEnds>),
}

/// What becomes of a job.
#[derive(Clone, Copy, Debug, PartialEq, Eq)]
pub enum JobEnds {
    Skipped,
    Ends(Ending),
}

/// Every case there is, but for that of [`crate::writing`].
pub fn all() -> Vec<DayCase> {
    [
        refusals::cases(),
        jobs::cases(),
        code::cases(),
        several::cases(),
        admission::cases(),
        callers::cases(),
        store::cases(),
        handles::cases(),
        halves::cases(),
        clearances::cases(),
        views::cases(),
        parties::cases(),
    ]
    .concat()
}

/// Input records of [`day`].
pub const INPUTS: u16 = 7;
/// The place that the first new record takes.
pub const FIRST: u8 = INPUTS as u8;

/// A day without jobs, with the labels and records that plain cases share.
pub fn day() -> DayScript {
    DayScript { labels: crate::labels(), records: crate::records(), steps: 100_000, ..DayScript::default() }
}

/// A day with these jobs.
pub fn of(jobs: &[fn(&mut Code)]) -> DayScript {
    let mut day = day();
    jobs.iter().for_each(|write| add(&mut day, *write));
    day
}

/// The caller of [`one_caller`].
pub const CALLER: u8 = 3;

/// Makes the jobs one caller's, which declare so many steps of this limit.
pub fn one_caller(day: &mut DayScript, limit: u32, declared: &[u16]) {
    day.steps = limit;
    for (job, &steps) in day.jobs.iter_mut().zip(declared) {
        (job.caller, job.steps) = (CALLER, steps);
    }
}

/// Adds a job that starts public, with as much as plain cases are given. Each of 16 jobs
/// has a caller of its own.
pub fn add(day: &mut DayScript, write: impl FnOnce(&mut Code)) {
    let mut code = Code::new();
    write(&mut code);
    add_bytes(day, &code.bytes());
}

/// [`add`], with the code as it is.
pub fn add_bytes(day: &mut DayScript, code: &[u8]) {
    let (code_at, code_length) = day.add_code(code);
    day.jobs.push(JobEntry {
        caller: day.jobs.len() as u8,
        label: label::PUBLIC,
        clearance: label::CLEARANCE,
        zero: 0,
        steps: 1000,
        places: INPUTS + u16::from(FREE_PLACES),
        code_at,
        code_length,
    });
}

/// PUSH 5, END.
pub fn five(code: &mut Code) {
    code.push(5).end();
}

fn number(number: u32) -> JobEnds {
    JobEnds::Ends(Ending::Result(Value::Number(number)))
}

/// An uncaught fault whose number is 0.
fn fault(code: u8) -> JobEnds {
    thrown(Fault::plain(code))
}

/// An uncaught fault.
fn thrown(fault: Fault) -> JobEnds {
    JobEnds::Ends(Ending::Fault(fault))
}

fn refused(name: impl Into<String>, refusal: u8, day: &DayScript) -> DayCase {
    refused_bytes(name, refusal, day.bytes())
}

fn refused_bytes(name: impl Into<String>, refusal: u8, file: Vec<u8>) -> DayCase {
    DayCase { name: name.into(), file, expected: Expected::Refused(refusal) }
}

fn ends(name: impl Into<String>, jobs: &[JobEnds], day: &DayScript) -> DayCase {
    DayCase { name: name.into(), file: day.bytes(), expected: Expected::Jobs(jobs.to_vec()) }
}
