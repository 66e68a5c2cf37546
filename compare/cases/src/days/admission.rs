//! Which jobs of one caller run, and what the caller is charged for them. For several
//! callers see [`super::callers`].

use super::{add, day, ends, fault, five, number, one_caller, DayCase, JobEnds, CALLER, FIRST};
use crate::label;
use reference::day_script::DayScript;
use reference::opcode::THROW;
use reference::script::Code;
use reference::value::{Ending, Fault, Value};
use JobEnds::Skipped;

pub fn cases() -> Vec<DayCase> {
    [limits(), charges(), large()].concat()
}

pub const SPENT: JobEnds = JobEnds::Ends(Ending::Spent);
/// What becomes of [`five`] with two steps or more.
pub const RUNS: JobEnds = JobEnds::Ends(Ending::Result(Value::Number(5)));

/// A day without records, so that its views are short, and with this limit.
pub fn small(limit: u32) -> DayScript {
    let mut day = day();
    day.labels.truncate(2);
    day.records.clear();
    day.steps = limit;
    day
}

/// Adds a job of this caller that declares so many steps.
pub fn add_called(day: &mut DayScript, caller: u8, steps: u16, write: fn(&mut Code)) {
    add(day, write);
    let job = day.jobs.last_mut().expect("a job was added");
    (job.caller, job.steps) = (caller, steps);
}

/// Jobs of one caller that declare so many steps and use two of them.
fn declaring(name: &str, limit: u32, declared: &[u16], expected: &[JobEnds]) -> DayCase {
    let mut day = small(limit);
    declared.iter().for_each(|&steps| add_called(&mut day, CALLER, steps, five));
    ends(name, expected, &day)
}

fn limits() -> Vec<DayCase> {
    vec![
        declaring("a day of 0 steps", 0, &[2, 65_535], &[Skipped, Skipped]),
        declaring("a day of 1 step", 1, &[2, 1], &[Skipped, SPENT]),
        declaring("exactly used up", 20, &[10, 10, 1], &[RUNS, RUNS, Skipped]),
        declaring("one step short", 19, &[10, 10], &[RUNS, Skipped]),
        declaring("all in one job", 300, &[300, 1, 300], &[RUNS, Skipped, Skipped]),
    ]
}

fn charges() -> Vec<DayCase> {
    vec![
        declaring("a skipped job is charged nothing", 20, &[15, 10, 5], &[RUNS, Skipped, RUNS]),
        declaring("a first job skipped", 20, &[21, 20], &[Skipped, RUNS]),
        declaring("two skipped jobs", 20, &[15, 10, 10, 5, 1], &[RUNS, Skipped, Skipped, RUNS, Skipped]),
        declaring("declared steps are charged", 20, &[15, 15], &[RUNS, Skipped]),
        declaring("a job is measured by what is left", 20, &[15, 6, 5], &[RUNS, Skipped, RUNS]),
        after("a spent job is charged", Ending::Spent, spin),
        after("a fault's job is charged", Ending::Fault(Fault::thrown(1)), throw),
    ]
}

pub fn spin(code: &mut Code) {
    let again = code.here();
    code.jump(again);
}

pub fn throw(code: &mut Code) {
    code.push(1).op(THROW);
}

/// A job of 10 steps that ends so, then one of 11 and one of 10, in a day of 20.
fn after(name: &str, ending: Ending, write: fn(&mut Code)) -> DayCase {
    let mut day = small(20);
    for (steps, write) in [(10, write), (11, five), (10, five)] {
        add_called(&mut day, CALLER, steps, write);
    }
    ends(name, &[JobEnds::Ends(ending), Skipped, number(5)], &day)
}

/// Days whose steps need all 32 bits, and jobs with many steps.
fn large() -> Vec<DayCase> {
    let all = [u16::MAX; 16];
    let all_but_one = [[RUNS; 15].as_slice(), &[Skipped]].concat();
    vec![
        declaring("a day of 65,536 steps", 65_536, &[u16::MAX, 2, 1], &[RUNS, Skipped, SPENT]),
        declaring("16 times 65,535 steps", 16 * 65_535, &all, &[RUNS; 16]),
        declaring("one step fewer than 16 times 65,535", 16 * 65_535 - 1, &all, &all_but_one),
        declaring("a day of 4,294,967,295 steps", u32::MAX, &all, &[RUNS; 16]),
        block(),
    ]
}

/// A block is charged to its job, and to the caller only with the job's steps.
fn block() -> DayCase {
    let mut day = day();
    add(&mut day, |code| {
        let body = code.target();
        code.lab(label::PUBLIC).block(body, 900, 0).end();
        code.place(body).push(1).end();
    });
    add(&mut day, |code| _ = code.end());
    one_caller(&mut day, 2000, &[1000, 1000]);
    let handle = JobEnds::Ends(Ending::Result(Value::Sealed(FIRST)));
    ends("a block's steps are the job's", &[handle, fault(20)], &day)
}
