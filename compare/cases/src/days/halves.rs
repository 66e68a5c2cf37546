//! Jobs that end with 23, 24 or 25, with the half of the flow test that failed.

use super::{add, ends, fault, number, thrown, DayCase};
use crate::halves::{answering, label, labels, overstep, records, Target};
use reference::day_script::DayScript;
use reference::opcode::*;
use reference::script::{Clauses, Input};
use reference::value::Fault;

pub fn cases() -> Vec<DayCase> {
    let answers = |answers: &[(u32, u32)]| answers.iter().map(|&(a, b)| (LOWER, a, b)).collect::<Vec<_>>();
    let one_fails = [(1, 0), (2, 0), (3, 0), (0, 1), (0, 2), (0, 3)];
    let both_fail = [(1, 2), (2, 1), (1, 3), (2, 3), (3, 1), (3, 2)];
    vec![
        told("23 of a day's jobs", &[(SEAL, 1, 0), (NEW, 2, 0), (WRITE, 3, 0), (BLOCK, 2, 0)]),
        told(
            "23 of a day's jobs, where 24 would tell another half",
            &[(SEAL, 1, 2), (NEW, 2, 1), (BLOCK, 1, 3), (SEAL, 2, 3), (NEW, 3, 1), (BLOCK, 3, 2)],
        ),
        told("24 of targets of a day's jobs", &[(SEAL, 0, 1), (NEW, 0, 2), (WRITE, 0, 3), (BLOCK, 0, 2)]),
        told(
            "24 of raised labels of a day's jobs",
            &[(RAISE, 0, 2), (OPEN, 0, 1), (READ, 0, 2), (READ, 0, 3), (OPEN, 2, 1)],
        ),
        told("25 of a day's jobs", &answers(&one_fails)),
        told("25 of a day's jobs, by the first of two tests", &answers(&both_fail)),
        told("25 of both halves, shown", &answers(&[(3, 0)])),
        handed_on(),
        sealed(),
    ]
}

/// A day with the labels and records of these targets, and no jobs.
fn day(targets: &[Target]) -> DayScript {
    DayScript {
        labels: labels(targets),
        records: records(targets.len()),
        steps: 100_000,
        ..DayScript::default()
    }
}

/// A job for each instruction, on a target with these two answers.
fn told(name: &str, oversteps: &[(u8, u32, u32)]) -> DayCase {
    let targets: Vec<Target> = oversteps.iter().map(|&(_, first, second)| answering(first, second)).collect();
    let mut day = day(&targets);
    let mut expected = Vec::new();
    for (at, (&(opcode, ..), target)) in (0u8..).zip(oversteps.iter().zip(&targets)) {
        add(&mut day, |code| {
            overstep(code, opcode, at);
            code.push(1).end();
        });
        expected.push(thrown(target.fault(opcode)));
    }
    ends(name, &expected, &day)
}

/// Adds a reference that every job may write and read.
fn add_reference(day: &mut DayScript) -> u8 {
    let within = day.labels.len() as u8;
    day.labels.push(Clauses::new(&[1, 2], &[12]));
    day.records.push(Input::reference(within, 0));
    (day.records.len() - 1) as u8
}

/// A handler leaves the number that it got, and the next job reads it.
fn handed_on() -> DayCase {
    let mut day = day(&[answering(0, 2)]);
    let reference = add_reference(&mut day);
    add(&mut day, |code| {
        let handler = code.target();
        code.try_to(handler);
        overstep(code, OPEN, 0);
        code.place(handler).input(reference).op(WRITE).push(5).end();
    });
    add(&mut day, |code| _ = code.input(reference).ops(&[READ, END]));
    ends("24 of integrity, caught and handed on", &[number(5), number(2)], &day)
}

/// A block seals the fault; its own job opens it, and the next one finds 33, number 0.
fn sealed() -> DayCase {
    let mut day = day(&[answering(2, 1)]);
    let reference = add_reference(&mut day);
    add(&mut day, |code| {
        let body = code.target();
        code.op(CUR).block(body, 9, 0).set(0).get(0).input(reference).op(WRITE).get(0).ops(&[OPEN, END]);
        code.place(body).lab(label(0)).ops(&[LOWER, END]);
    });
    add(&mut day, |code| _ = code.input(reference).ops(&[READ, END]));
    ends("25 of integrity, sealed", &[thrown(Fault::bad_lower(2)), fault(33)], &day)
}
