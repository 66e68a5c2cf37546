//! Handles to records that are gone: fault 33, number 0.
//!
//! A handle to a place where no record ever stood cannot arise: every handle is
//! made with its record, and a block's unused places get neither. The nearest are
//! handles to places behind such unused ones.

use super::{add, day, ends, fault, five, number, of, thrown, DayCase, JobEnds, FIRST};
use crate::label;
use crate::record::*;
use reference::opcode::*;
use reference::script::Code;
use reference::value::{Ending, Fault, Value};

pub fn cases() -> Vec<DayCase> {
    [places(), caught(), reads(), raises(), blocks(), overwritten()].concat()
}

/// Leaves the handle on top of the stack in `reference`.
fn leave(code: &mut Code, reference: u8) {
    code.input(reference).op(WRITE);
    five(code);
}

fn leave_sealed(code: &mut Code) {
    code.push(1).ops(&[CUR, SEAL]);
    leave(code, REFERENCE_PUBLIC);
}

fn leave_reference(code: &mut Code) {
    code.push(1).ops(&[CUR, NEW]);
    leave(code, REFERENCE_PUBLIC);
}

/// Leaves a handle where only those see it whom the player's label flows to.
fn leave_hidden(code: &mut Code) {
    code.push(1).ops(&[CUR, NEW]);
    leave(code, REFERENCE_PLAYER);
}

fn read(code: &mut Code) {
    code.input(REFERENCE_PUBLIC).ops(&[READ, END]);
}

fn places() -> Vec<DayCase> {
    let mut last = day();
    add(&mut last, |code| {
        let body = code.target();
        code.lab(label::PUBLIC).block(body, 1, 247).op(POP).push(1).ops(&[CUR, NEW]);
        leave(code, REFERENCE_PUBLIC);
        code.place(body).end();
    });
    add(&mut last, read);
    last.jobs[0].places = 256;
    let mut fewer = of(&[leave_sealed, read]);
    fewer.jobs[1].places = FIRST.into();
    vec![
        ends("a sealed handle to place C", &[number(5), fault(33)], &of(&[leave_sealed, read])),
        ends("a reference handle to place C", &[number(5), fault(33)], &of(&[leave_reference, read])),
        ends("a handle to place 255", &[number(5), fault(33)], &last),
        ends("a handle behind a block's unused places", &[number(5), fault(33)], &of(&[behind_block, read])),
        ends("a handle to a block's outcome", &[number(5), fault(33)], &of(&[outcome, read])),
        ends("a handle that a body made", &[number(5), fault(33)], &of(&[body_made, read])),
        ends("a handle to a place that is not the next job's", &[number(5), fault(33)], &fewer),
        // The next job's first record stands where the handle led.
        ends(
            "a new record in the handle's place",
            &[number(5), fault(33)],
            &of(&[leave_sealed, |code| {
                code.push(2).ops(&[CUR, SEAL, POP]);
                read(code);
            }]),
        ),
        ends(
            "a handle as a result is shown",
            &[JobEnds::Ends(Ending::Result(Value::Sealed(FIRST)))],
            &of(&[|code| _ = code.push(1).ops(&[CUR, SEAL, END])]),
        ),
    ]
}

fn behind_block(code: &mut Code) {
    let body = code.target();
    code.lab(label::PUBLIC).block(body, 5, 6).op(POP).push(1).ops(&[CUR, SEAL]);
    leave(code, REFERENCE_PUBLIC);
    code.place(body).push(1).ops(&[CUR, SEAL, END]);
}

fn outcome(code: &mut Code) {
    let body = code.target();
    code.lab(label::PUBLIC).block(body, 5, 6);
    leave(code, REFERENCE_PUBLIC);
    code.place(body).push(1).end();
}

/// The body's result is a handle to what it made.
fn body_made(code: &mut Code) {
    let body = code.target();
    code.lab(label::PUBLIC).block(body, 5, 6).op(OPEN);
    leave(code, REFERENCE_PUBLIC);
    code.place(body).push(1).ops(&[CUR, NEW, END]);
}

/// What a handler gets.
fn caught() -> Vec<DayCase> {
    let caught = |name: &str, result, handler: fn(&mut Code)| {
        let mut day = of(&[leave_sealed]);
        add(&mut day, |code| {
            let caught = code.target();
            code.try_to(caught);
            read(code);
            code.place(caught);
            handler(code);
            code.end();
        });
        ends(name, &[number(5), number(result)], &day)
    };
    vec![
        caught("33 is the code that is caught", 33, |code| _ = code.op(POP)),
        caught("33 has the number 0", 0, |_| ()),
        // READ's operand stays, below the two.
        ends(
            "a READ that threw left its operand",
            &[number(5), reference_handle()],
            &of(&[leave_sealed, |code| {
                let caught = code.target();
                code.input(REFERENCE_PUBLIC).try_to(caught).op(READ);
                code.place(caught).ops(&[POP, POP, END]);
            }]),
        ),
    ]
}

fn reads() -> Vec<DayCase> {
    let in_the_same_job = |code: &mut Code| {
        code.push(1).ops(&[CUR, SEAL]).input(REFERENCE_PUBLIC).op(WRITE);
        code.input(REFERENCE_PUBLIC).ops(&[READ, OPEN, END]);
    };
    vec![
        ends("the handle holds until its job ends", &[number(1), fault(33)], &of(&[in_the_same_job, read])),
        ends(
            "33 is there for every later job",
            &[number(5), fault(33), fault(33)],
            &of(&[leave_sealed, read, read]),
        ),
        ends(
            "INPUT of a reference that holds 33",
            &[number(5), reference_handle()],
            &of(&[leave_sealed, |code| _ = code.input(REFERENCE_PUBLIC).end()]),
        ),
        ends(
            "LABOF of a reference that holds 33",
            &[number(5), number(1)],
            &of(&[leave_hidden, |code| {
                code.lab(label::PLAYER).input(REFERENCE_PLAYER).ops(&[LABOF, FLOWS]);
                code.op(CUR).lab(label::PUBLIC).ops(&[FLOWS, SAME, END]);
            }]),
        ),
    ]
}

fn reference_handle() -> JobEnds {
    JobEnds::Ends(Ending::Result(Value::Reference(REFERENCE_PUBLIC)))
}

/// Reads the player's reference and, in the handler, says whether the label still
/// flows to `label`.
fn read_then_flows(code: &mut Code, label: u8) {
    let caught = code.target();
    code.try_to(caught).input(REFERENCE_PLAYER).ops(&[READ, END]);
    code.place(caught).ops(&[POP, POP, CUR]).lab(label).ops(&[FLOWS, END]);
}

fn raises() -> Vec<DayCase> {
    let mut public = of(&[leave_hidden, |code| _ = code.input(REFERENCE_PLAYER).ops(&[READ, END])]);
    public.jobs[1].clearance = label::PUBLIC;
    let mut above = day();
    add(&mut above, |code| {
        code.push(1).ops(&[CUR, SEAL]);
        leave(code, REFERENCE_ABOVE);
    });
    add(&mut above, |code| _ = code.input(REFERENCE_ABOVE).ops(&[READ, END]));
    above.jobs[0].clearance = label::ABOVE;
    let mut cleared = above.clone();
    cleared.jobs[1].clearance = label::ABOVE;
    vec![
        ends(
            "READ raises, then throws 33",
            &[number(5), number(0)],
            &of(&[leave_hidden, |code| {
                read_then_flows(code, label::PUBLIC);
            }]),
        ),
        ends(
            "READ raises by the record's label",
            &[number(5), number(1)],
            &of(&[leave_hidden, |code| {
                read_then_flows(code, label::PLAYER);
            }]),
        ),
        ends("24 comes before 33", &[number(5), thrown(Fault::above_clearance(1))], &public),
        ends(
            "24 in place of 33, above the clearance",
            &[number(5), thrown(Fault::above_clearance(1))],
            &above,
        ),
        ends("33 in a record above the clearance of most", &[number(5), fault(33)], &cleared),
    ]
}

/// A block, bound by `bound`, whose body reads `reference`; then `after`.
fn in_block(code: &mut Code, bound: u8, reference: u8, after: impl FnOnce(&mut Code)) {
    let body = code.target();
    code.lab(bound).block(body, 5, 0);
    after(code);
    code.place(body).input(reference).ops(&[READ, END]);
}

fn open(code: &mut Code) {
    code.ops(&[OPEN, END]);
}

fn blocks() -> Vec<DayCase> {
    let opened = |code: &mut Code| in_block(code, label::PUBLIC, REFERENCE_PUBLIC, open);
    let unopened = |code: &mut Code| {
        in_block(code, label::PUBLIC, REFERENCE_PUBLIC, |code| {
            code.op(POP);
            five(code);
        })
    };
    let within = |code: &mut Code| {
        in_block(code, label::PLAYER, REFERENCE_PLAYER, |code| {
            let caught = code.target();
            code.try_to(caught).ops(&[OPEN, END]);
            code.place(caught).ops(&[POP, END]);
        })
    };
    let passed = |code: &mut Code| in_block(code, label::PUBLIC, REFERENCE_PLAYER, open);
    // The outcome that held 33 is gone too, and its handle is 33 in turn.
    let sealed_on = |code: &mut Code| {
        in_block(code, label::PUBLIC, REFERENCE_PUBLIC, |code| {
            leave(code, REFERENCE_PUBLIC);
        })
    };
    vec![
        ends("OPEN throws the 33 that a block sealed", &[number(5), fault(33)], &of(&[leave_sealed, opened])),
        ends("a sealed 33 that is not opened", &[number(5), number(5)], &of(&[leave_sealed, unopened])),
        ends("a 33 sealed within the bound", &[number(5), number(33)], &of(&[leave_hidden, within])),
        ends("31 over 33", &[number(5), fault(31)], &of(&[leave_hidden, passed])),
        ends(
            "a handle to a sealed 33",
            &[number(5), number(5), fault(33)],
            &of(&[leave_sealed, sealed_on, read]),
        ),
    ]
}

fn overwritten() -> Vec<DayCase> {
    let write = |code: &mut Code| {
        code.push(4).input(REFERENCE_PUBLIC).op(WRITE);
        read(code);
    };
    let write_hidden = |code: &mut Code| {
        code.push(4).input(REFERENCE_PLAYER).op(WRITE);
        five(code);
    };
    let read_hidden = |code: &mut Code| _ = code.input(REFERENCE_PLAYER).ops(&[READ, END]);
    vec![
        ends("WRITE over 33", &[number(5), number(4), number(4)], &of(&[leave_sealed, write, read])),
        ends(
            "WRITE over a hidden 33",
            &[number(5), number(5), number(4)],
            &of(&[leave_hidden, write_hidden, read_hidden]),
        ),
        ends(
            "33 over a number again",
            &[number(5), number(4), number(5), fault(33)],
            &of(&[leave_sealed, write, leave_reference, read]),
        ),
    ]
}
