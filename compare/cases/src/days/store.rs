//! What a job finds: input records as the job before left them, and all else as
//! at a plain file's start.

use super::{
    add, add_bytes, day, ends, fault, five, number, of, one_caller, DayCase, JobEnds, FIRST, INPUTS,
};
use crate::label;
use crate::record::*;
use reference::label::Label;
use reference::opcode::*;
use reference::script::Code;
use reference::table::Table;
use reference::value::{Ending, Fault, Value};

pub fn cases() -> Vec<DayCase> {
    [contents(), used(), endings(), places(), starts(), between()].concat()
}

fn gives(value: Value) -> JobEnds {
    JobEnds::Ends(Ending::Result(value))
}

fn write_nine(code: &mut Code) {
    code.push(9).input(REFERENCE_PUBLIC).op(WRITE).push(5).end();
}

fn read_public(code: &mut Code) {
    code.input(REFERENCE_PUBLIC).ops(&[READ, END]);
}

fn add_one(code: &mut Code) {
    code.input(REFERENCE_PUBLIC).op(READ).push(1).op(ADD).input(REFERENCE_PUBLIC).op(WRITE);
    read_public(code);
}

/// What is left in a reference is there for all later jobs.
fn contents() -> Vec<DayCase> {
    let player = Value::Label(Label { secrecy: Table([0xAAAA_AAAA_AAAA_AAAA; 4]), integrity: Table::TRUE });
    let passes = |name: &str, value, write: fn(&mut Code)| {
        let mut day = day();
        add(&mut day, |code| {
            write(code);
            code.input(REFERENCE_PUBLIC).op(WRITE).push(5).end();
        });
        add(&mut day, read_public);
        add(&mut day, read_public);
        ends(name, &[number(5), gives(value), gives(value)], &day)
    };
    vec![
        passes("a number is kept", Value::Number(9), |code| _ = code.push(9)),
        passes("a label is kept", player, |code| _ = code.lab(label::PLAYER)),
        passes("a handle to a sealed input is kept", Value::Sealed(6), |code| _ = code.input(SEALED_DEALER)),
        passes("a handle to a first input is kept", Value::Sealed(0), |code| _ = code.input(SEALED_PLAYER)),
        passes("a handle to an input reference is kept", Value::Reference(3), |code| {
            code.input(REFERENCE_PUBLIC);
        }),
    ]
}

/// What later jobs do with it.
fn used() -> Vec<DayCase> {
    vec![
        ends("a count goes on", &[number(7), number(8), number(9)], &of(&[add_one, add_one, add_one])),
        ends(
            "sealed inputs stay",
            &[number(5), number(1)],
            &of(&[write_nine, |code| {
                code.input(SEALED_PUBLIC).ops(&[OPEN, END]);
            }]),
        ),
        ends(
            "a kept handle is opened",
            &[number(5), number(1)],
            &of(&[
                |code| _ = code.input(SEALED_PUBLIC).input(REFERENCE_PUBLIC).op(WRITE).push(5).end(),
                |code| _ = code.input(REFERENCE_PUBLIC).ops(&[READ, OPEN, END]),
            ]),
        ),
        ends(
            "a kept reference is written",
            &[number(5), number(5), number(4)],
            &of(&[
                |code| _ = code.input(REFERENCE_PLAYER).input(REFERENCE_PUBLIC).op(WRITE).push(5).end(),
                |code| {
                    code.push(4).input(REFERENCE_PUBLIC).ops(&[READ, WRITE]).push(5).end();
                },
                |code| _ = code.input(REFERENCE_PLAYER).ops(&[READ, END]),
            ]),
        ),
    ]
}

/// However a job ends, what it wrote stays.
fn endings() -> Vec<DayCase> {
    let mut stopped = of(&[write_nine, read_public]);
    stopped.jobs[0].steps = 3;
    let thrown = JobEnds::Ends(Ending::Fault(Fault::thrown(1)));
    let spent = JobEnds::Ends(Ending::Spent);
    let throws = |code: &mut Code| {
        code.push(9).input(REFERENCE_PUBLIC).op(WRITE).push(1).op(THROW);
    };
    vec![
        ends("a spent job's writes stay", &[spent, number(9)], &stopped),
        ends("a faulting job's writes stay", &[thrown, number(9)], &of(&[throws, read_public])),
        ends(
            "a job runs behind a faulting one",
            &[fault(20), number(5)],
            &of(&[|code| _ = code.end(), five]),
        ),
    ]
}

/// Every job has its own places, from C on.
fn places() -> Vec<DayCase> {
    let first_new = |code: &mut Code| _ = code.push(1).ops(&[CUR, NEW, END]);
    let handle = gives(Value::Reference(FIRST));
    let mut places = of(&[first_new, first_new, first_new]);
    places.jobs[0].places = 256;
    places.jobs[1].places = INPUTS;
    vec![
        ends("new records take the same place again", &[handle, handle], &of(&[first_new, first_new])),
        ends("each job has its own places", &[handle, fault(26), handle], &places),
    ]
}

/// Every job starts as its entry says, with nothing of the job before.
fn starts() -> Vec<DayCase> {
    vec![
        own_labels(),
        ends(
            "locals are not kept",
            &[number(5), number(0)],
            &of(&[|code| _ = code.push(9).set(0).push(5).end(), |code| _ = code.get(0).end()]),
        ),
        ends(
            "the stack is not kept",
            &[number(2), fault(20)],
            &of(&[|code| _ = code.push(1).push(2).end(), |code| _ = code.end()]),
        ),
        frames(),
        ends(
            "a raised label is not kept",
            &[number(7), number(1)],
            &of(&[
                |code| _ = code.input(SEALED_PLAYER).ops(&[OPEN, END]),
                |code| _ = code.op(CUR).lab(label::PUBLIC).ops(&[FLOWS, END]),
            ]),
        ),
        ends(
            "a lowered clearance is not kept",
            &[number(5), number(7)],
            &of(&[
                |code| _ = code.ops(&[CUR, LOWER]).push(5).end(),
                |code| _ = code.input(SEALED_PLAYER).ops(&[OPEN, END]),
            ]),
        ),
    ]
}

fn frames() -> DayCase {
    let try_and_end = |code: &mut Code| {
        let handler = code.target();
        code.try_to(handler).place(handler);
        five(code);
    };
    let pops = |code: &mut Code| _ = code.op(POP).end();
    ends("frames are not kept", &[number(5), fault(20)], &of(&[try_and_end, pops]))
}

fn own_labels() -> DayCase {
    let mut own = of(&[|code| _ = code.op(CUR).end(), |code| _ = code.op(CLR).end()]);
    for job in &mut own.jobs {
        (job.label, job.clearance) = (label::VOUCHED, label::DEALER);
    }
    let vouched = Value::Label(Label { secrecy: Table::TRUE, integrity: Table([0xF0F0_F0F0_F0F0_F0F0; 4]) });
    let dealer = Value::Label(Label { secrecy: Table([0xCCCC_CCCC_CCCC_CCCC; 4]), integrity: Table::TRUE });
    ends("a job's own label and clearance", &[gives(vouched), gives(dealer)], &own)
}

/// A skipped job between two others.
fn between() -> Vec<DayCase> {
    let mut day = of(&[write_nine, add_one, read_public]);
    one_caller(&mut day, 20, &[10, 11, 10]);
    let mut by_turns = of(&[add_one, add_one, add_one, add_one]);
    one_caller(&mut by_turns, 20, &[10, 10, 11, 10]);
    (by_turns.jobs[0].caller, by_turns.jobs[2].caller) = (7, 7);
    let mut one_byte = of(&[write_nine]);
    add_bytes(&mut one_byte, &[END]);
    add(&mut one_byte, read_public);
    vec![
        ends("a skipped job writes nothing", &[number(5), JobEnds::Skipped, number(9)], &day),
        ends(
            "two callers' jobs run in the day's order",
            &[number(7), number(8), JobEnds::Skipped, number(9)],
            &by_turns,
        ),
        ends("a job of one byte between two", &[number(5), fault(20), number(9)], &one_byte),
    ]
}
