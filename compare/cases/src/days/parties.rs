//! Days of the hirer and the repair desk: starts that one word of a table alone decides, and
//! what one leaves for the other.

use super::{add, ends, five, number, refused, thrown, DayCase, JobEnds};
use crate::parties::{one_word_tests, DESK, HIRER};
use reference::day_script::DayScript;
use reference::label::Label;
use reference::opcode::*;
use reference::script::{Clauses, Input};
use reference::table::Table;
use reference::value::{Ending, Fault, Value};

pub fn cases() -> Vec<DayCase> {
    let mut cases = starts();
    cases.extend([handed_over(), skipped(), clearances(), joined_and_met()]);
    cases
}

/// A job's start that does not flow to its clearance, by one word alone.
fn starts() -> Vec<DayCase> {
    one_word_tests()
        .into_iter()
        .map(|test| {
            let labels = vec![Clauses::default(), Clauses::new(&[0], &[]), test.from, test.to];
            let mut day = DayScript { labels, steps: 1000, ..DayScript::default() };
            add(&mut day, five);
            (day.jobs[0].label, day.jobs[0].clearance) = (2, 3);
            refused(format!("10 in {}", test.name), 10, &day)
        })
        .collect()
}

/// Records and labels of the two, of either and of both.
fn day() -> DayScript {
    let secrecy: [&[u8]; 6] = [&[], &[0], &[HIRER], &[DESK], &[HIRER | DESK], &[HIRER, DESK]];
    let labels = secrecy.map(|masks| Clauses::new(masks, &[])).to_vec();
    let records = [2, 3, 5, 1].map(|label| Input::reference(label, label.into())).to_vec();
    DayScript { labels, records, steps: 1000, ..DayScript::default() }
}

/// All start with what either of the two may read. One writes to what takes both to be read;
/// the desk alone is shut out of it, and both together are not.
fn handed_over() -> DayCase {
    let mut day = day();
    add(&mut day, |code| _ = code.push(9).input(2).ops(&[WRITE, CUR, CLR, FLOWS, END]));
    add(&mut day, |code| _ = code.input(2).ops(&[READ, END]));
    add(&mut day, |code| _ = code.input(2).ops(&[READ, END]));
    for (job, clearance) in day.jobs.iter_mut().zip([5, 3, 5]) {
        (job.label, job.clearance, job.steps, job.places) = (4, clearance, 10, 4);
    }
    let shut_out = thrown(Fault::above_clearance(1));
    ends("what the hirer leaves for both", &[number(1), shut_out, number(9)], &day)
}

/// A skipped job is shown to all, whoever's it is.
fn skipped() -> DayCase {
    let mut day = day();
    add(&mut day, five);
    add(&mut day, five);
    for job in &mut day.jobs {
        (job.label, job.clearance, job.places) = (5, 1, 4);
        (job.caller, job.steps) = (6, 600);
    }
    ends("a skipped job of hirer and desk", &[number(5), JobEnds::Skipped], &day)
}

const ALL: u64 = u64::MAX;
const EITHER: [u64; 4] = [0, ALL, ALL, ALL];
const BOTH: [u64; 4] = [0, 0, 0, ALL];

/// A job that gives the label with these words of secrecy, which no one vouches for.
fn gives(words: [u64; 4]) -> JobEnds {
    let label = Label { secrecy: Table(words), integrity: Table::TRUE };
    JobEnds::Ends(Ending::Result(Value::Label(label)))
}

/// Each job gives its own clearance.
fn clearances() -> DayCase {
    let words = [[0, ALL, 0, ALL], [0, 0, ALL, ALL], EITHER, BOTH];
    let mut day = day();
    for clearance in 2..=5 {
        add(&mut day, |code| _ = code.ops(&[CLR, END]));
        let job = day.jobs.last_mut().expect("a job was added");
        (job.clearance, job.steps, job.places) = (clearance, 10, 4);
    }
    ends("clearances of hirer and desk", &words.map(gives), &day)
}

fn joined_and_met() -> DayCase {
    let mut day = day();
    add(&mut day, |code| _ = code.lab(2).lab(3).ops(&[JOIN, END]));
    add(&mut day, |code| _ = code.lab(2).lab(3).ops(&[MEET, END]));
    day.jobs.iter_mut().for_each(|job| (job.steps, job.places) = (10, 4));
    ends("labels of hirer and desk joined and met", &[gives(BOTH), gives(EITHER)], &day)
}
