//! Which fault is given where two would do. Faults are checked in the order
//! 20, 21, 22, 29, 23, 24, 25, 28, 27, 26, 30.

use crate::faults::bare;
use crate::{case, label, record, tuned, Case, Expected, FREE_PLACES};
use reference::opcode::*;
use reference::script::{Code, Target};
use reference::value::Fault;

pub fn cases() -> Vec<Case> {
    [operands(), targets(), nested(), blocks()].concat()
}

fn first(fault: Fault, then: &str, write: impl FnOnce(&mut Code)) -> Case {
    case(format!("{} before {then}", fault.code), Expected::thrown(fault), |code| {
        write(code);
        code.push(1).end();
    })
}

fn operands() -> Vec<Case> {
    let mut cases = Vec::new();
    for opcode in [ADD, SUB, LESS, SAME, FLOWS, JOIN, MEET, SEAL, NEW, WRITE] {
        cases.push(first(
            Fault::TOO_FEW_OPERANDS,
            &format!("22 in {}", SHAPES[opcode as usize].name),
            |code| {
                bare(code, INPUT);
                bare(code, opcode);
            },
        ));
    }
    cases.push(case("21 before 29 in TRY", Expected::number(21), |code| {
        let handler = code.target();
        (0..30).for_each(|_| bare(code, GET));
        (0..8).for_each(|_| _ = code.try_to(handler));
        code.get(0).try_to(handler);
        code.place(handler).op(POP).end();
    }));
    cases.push(first(Fault::WRONG_KIND, "30 in THROW", |code| _ = code.lab(label::PUBLIC).op(THROW)));
    cases.push(first(Fault::above_clearance(1), "the sealed fault in OPEN", |code| {
        let body = code.target();
        // The outcome is a fault labelled PLAYER; then the clearance goes down.
        code.lab(label::PLAYER).block(body, 9, 0).lab(label::DEALER).ops(&[LOWER, OPEN]);
        code.place(body).push(8).op(THROW);
    }));
    cases
}

/// Label PLAYER and clearance PLAYER: as a target, DEALER is neither above the
/// label nor within the clearance.
fn confine(code: &mut Code) {
    code.lab(label::PLAYER).op(RAISE).lab(label::PLAYER).op(LOWER);
}

/// Takes all places that are left.
fn fill(code: &mut Code) {
    for _ in 0..FREE_PLACES {
        code.push(1).ops(&[CUR, SEAL, POP]);
    }
}

fn targets() -> Vec<Case> {
    let mut cases = Vec::new();
    for opcode in [SEAL, NEW] {
        let name = SHAPES[opcode as usize].name;
        cases.push(first(Fault::above_target(1), &format!("24 in {name}"), |code| {
            confine(code);
            code.push(1).lab(label::DEALER).op(opcode);
        }));
        cases.push(first(Fault::WRONG_KIND, &format!("26 in {name}"), |code| {
            fill(code);
            code.push(1).push(1).op(opcode);
        }));
        cases.push(first(Fault::above_target(2), &format!("26 in {name}"), |code| {
            fill(code);
            code.push(1).lab(label::VOUCHED).op(opcode);
        }));
        cases.push(first(Fault::above_clearance(1), &format!("26 in {name}"), |code| {
            fill(code);
            code.push(1).lab(label::ABOVE).op(opcode);
        }));
    }
    cases.push(first(Fault::above_target(1), "24 in WRITE", |code| {
        confine(code);
        code.push(1).input(record::REFERENCE_PUBLIC).op(WRITE);
    }));
    cases.push(first(Fault::above_target(1), "24 in WRITE, the target above the clearance", |code| {
        let body = code.target();
        code.push(1).lab(label::DEALER).op(NEW).set(0);
        code.lab(label::PLAYER).block(body, 99, 0).op(OPEN).end();
        code.place(body);
        confine(code);
        code.push(1).get(0).op(WRITE);
    }));
    cases
}

/// A BLOCK with more steps than are left and more places.
fn greedy(code: &mut Code) {
    let body = code.target();
    code.block(body, u16::MAX, u8::MAX);
    code.place(body);
}

fn blocks() -> Vec<Case> {
    vec![
        first(Fault::TOO_FEW_OPERANDS, "27 and 26 in BLOCK", greedy),
        first(Fault::WRONG_KIND, "27 and 26 in BLOCK", |code| {
            code.push(1);
            greedy(code);
        }),
        first(Fault::above_target(1), "24 in BLOCK", |code| {
            confine(code);
            code.lab(label::DEALER);
            bare(code, BLOCK);
        }),
        first(Fault::above_target(2), "27 and 26 in BLOCK", |code| {
            code.lab(label::VOUCHED);
            greedy(code);
        }),
        first(Fault::above_clearance(1), "27 and 26 in BLOCK", |code| {
            code.lab(label::ABOVE);
            greedy(code);
        }),
        first(Fault::NO_STEPS, "26 in BLOCK", |code| {
            code.lab(label::PUBLIC);
            greedy(code);
        }),
    ]
}

/// Inside the eighth block, where BLOCK gives 28 unless an earlier fault does.
fn nested() -> Vec<Case> {
    let innermost = |fault: Fault, then: &str, write: fn(&mut Code, Target)| {
        let deep = |script: &mut Code| {
            let bodies: Vec<Target> = (0..8).map(|_| script.target()).collect();
            let end = script.target();
            script.lab(label::PUBLIC).block(bodies[0], 80, 8).op(OPEN).end();
            for level in 1..8u8 {
                script.place(bodies[level as usize - 1]).lab(label::PUBLIC);
                script.block(bodies[level as usize], 80 - 10 * u16::from(level), 8 - level).op(OPEN).end();
            }
            script.place(bodies[7]);
            write(script, end);
            script.place(end).push(1).end();
        };
        let name = format!("{} before {then} in the eighth block", fault.code);
        tuned(name, Expected::thrown(fault), deep, |_| ())
    };
    vec![
        innermost(Fault::TOO_DEEP, "27 and 26", |code, end| {
            _ = code.lab(label::PUBLIC).block(end, u16::MAX, u8::MAX)
        }),
        innermost(Fault::TOO_DEEP, "26", |code, end| _ = code.lab(label::PUBLIC).block(end, 0, u8::MAX)),
        innermost(Fault::TOO_DEEP, "27", |code, end| _ = code.lab(label::PUBLIC).block(end, u16::MAX, 0)),
        innermost(Fault::TOO_DEEP, "nothing else", |code, end| _ = code.lab(label::PUBLIC).block(end, 0, 0)),
        innermost(Fault::above_clearance(1), "28", |code, end| _ = code.lab(label::ABOVE).block(end, 0, 0)),
        innermost(Fault::above_target(2), "28", |code, end| _ = code.lab(label::VOUCHED).block(end, 0, 0)),
        innermost(Fault::WRONG_KIND, "28", |code, end| _ = code.push(1).block(end, 0, 0)),
        innermost(Fault::TOO_FEW_OPERANDS, "28", |code, end| _ = code.block(end, 0, 0)),
    ]
}
