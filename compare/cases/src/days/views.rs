//! Days whose views are long, or differ from reader to reader.

use super::{add_bytes, day, ends, fault, five, number, of, one_caller, DayCase, JobEnds};
use crate::label;
use crate::record::*;
use reference::day_script::DayScript;
use reference::opcode::*;
use reference::script::{Clauses, Code, Input};

pub fn cases() -> Vec<DayCase> {
    vec![
        ends("views of different lengths", &[number(7), number(5), JobEnds::Skipped, number(6)], &lengths()),
        ends("views of more than 65,535 bytes", &[fault(26); 2], &long()),
        ends("steps used are the job's own", &[number(5), number(5)], &own_steps()),
    ]
}

/// A hidden final label, new records, a skipped job, and one without new records.
pub fn lengths() -> DayScript {
    let mut day = of(&[
        |code| _ = code.input(SEALED_PLAYER).ops(&[OPEN, END]),
        |code| {
            code.push(1).ops(&[CUR, SEAL, POP]).push(2).lab(label::PLAYER).ops(&[NEW, POP]);
            five(code);
        },
        five,
        |code| _ = code.input(REFERENCE_PUBLIC).ops(&[READ, END]),
    ]);
    one_caller(&mut day, 100, &[40, 40, 21, 20]);
    day
}

/// Two jobs that each fill all 256 places with records that every reader sees.
pub fn long() -> DayScript {
    let mut day = day();
    day.labels = vec![Clauses::default(), Clauses::default()];
    day.records = vec![Input::sealed(0, 7); 64];
    let mut code = Code::new();
    let again = code.here();
    code.push(1).lab(0).ops(&[SEAL, POP]).jump(again);
    for _ in 0..2 {
        add_bytes(&mut day, &code.bytes());
    }
    for job in &mut day.jobs {
        (job.steps, job.places) = (2000, 256);
    }
    day
}

fn own_steps() -> DayScript {
    let mut day = of(&[five, five]);
    one_caller(&mut day, 70_000, &[u16::MAX, 1000]);
    day
}
