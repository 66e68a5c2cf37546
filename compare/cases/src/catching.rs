//! What a handler is given, and what stands when it runs. More of its clearance is in
//! [`crate::clearances`].

use crate::{case, label, record, tuned, Case, Expected};
use reference::opcode::*;
use reference::script::{Code, Target};
use reference::value::{Ending, Fault};

pub fn cases() -> Vec<Case> {
    [stack(), frames(), labels(), raises(), last_steps()].concat()
}

/// Runs `write` under a handler that `handle` writes.
fn tried(name: &str, result: u32, write: impl FnOnce(&mut Code), handle: impl FnOnce(&mut Code)) -> Case {
    case(name, Expected::number(result), |code| {
        let handler = code.target();
        // A value below the frame, to be seen if the stack is cut too low.
        code.push(100).try_to(handler);
        write(code);
        code.push(0).end();
        code.place(handler);
        handle(code);
    })
}

fn stack() -> Vec<Case> {
    let throw = |code: &mut Code| _ = code.push(8).op(THROW);
    vec![
        tried("the number is on top", 8, throw, |code| _ = code.end()),
        tried("the code is below it", 30, throw, |code| _ = code.op(POP).end()),
        tried("the stack is cut to its height at TRY", 100, throw, |code| _ = code.ops(&[POP, POP, END])),
        tried(
            "a lower stack is left",
            20,
            |code| _ = code.ops(&[POP, POP]),
            // Without a value below them, code and number are all there is.
            |code| _ = code.ops(&[POP, END]),
        ),
        case("a lower stack gets nothing put under it", Expected::fault(20), |code| {
            let handler = code.target();
            code.push(100).try_to(handler).ops(&[POP, POP]);
            code.place(handler).ops(&[POP, POP, END]);
        }),
        case("operands stay: 8, 30, 8", Expected::number(1), |code| {
            let (handler, bad) = (code.target(), code.target());
            code.push(8).try_to(handler).op(THROW);
            code.place(handler);
            for wanted in [8, 30, 8] {
                code.push(wanted).op(SAME).ifz(bad);
            }
            code.push(1).end();
            code.place(bad).push(0).end();
        }),
        tried(
            "faults without a number give 0",
            0,
            |code| _ = code.lab(label::PUBLIC).op(THROW),
            |code| _ = code.end(),
        ),
    ]
}

fn frames() -> Vec<Case> {
    vec![
        case("the newest frame catches, and only once", Expected::number(2), |code| {
            let (outer, inner) = (code.target(), code.target());
            code.try_to(outer).try_to(inner).push(1).op(THROW);
            code.place(inner).push(2).op(THROW);
            code.place(outer).end();
        }),
        case("DONE drops the newest frame", Expected::number(1), |code| {
            let (outer, inner) = (code.target(), code.target());
            code.try_to(outer).try_to(inner).op(DONE).push(1).op(THROW);
            code.place(inner).push(5).end();
            code.place(outer).end();
        }),
        case("a body's frames end with it", Expected::thrown(Fault::thrown(3)), |code| {
            let (body, handler) = (code.target(), code.target());
            code.lab(label::PUBLIC).block(body, 9, 0).op(OPEN).op(THROW);
            code.place(handler).push(5).end();
            code.place(body).try_to(handler).push(3).end();
        }),
        case("a body's fault does not cross to the outer frame", Expected::number(4), |code| {
            let (body, handler) = (code.target(), code.target());
            code.try_to(handler).lab(label::PUBLIC).block(body, 9, 0).push(4).end();
            code.place(handler).push(5).end();
            code.place(body).push(3).op(THROW);
        }),
    ]
}

/// Ends with 1 if label `index` and the current one (CUR) or clearance (CLR) are the same.
fn same_label(code: &mut Code, index: u8, current: u8) {
    let bad: Target = code.target();
    code.lab(index).op(current).op(FLOWS).ifz(bad);
    code.op(current).lab(index).op(FLOWS).end();
    code.place(bad).push(0).end();
}

fn labels() -> Vec<Case> {
    vec![
        tried(
            "the handler runs with the label at the throw",
            1,
            |code| _ = code.input(record::SEALED_PLAYER).ops(&[OPEN, THROW]),
            |code| same_label(code, label::PLAYER, CUR),
        ),
        tried(
            "the handler runs with the clearance at TRY",
            1,
            |code| _ = code.lab(label::PLAYER).ops(&[LOWER, THROW]),
            |code| same_label(code, label::CLEARANCE, CLR),
        ),
    ]
}

/// Of all faulting instructions, only an OPEN that throws a sealed fault raises.
fn raises() -> Vec<Case> {
    vec![
        tried(
            "OPEN that gives 24 does not raise",
            1,
            |code| _ = code.input(record::SEALED_ABOVE).op(OPEN),
            |code| same_label(code, label::PUBLIC, CUR),
        ),
        tried(
            "OPEN that throws a sealed fault raises",
            1,
            |code| {
                let (body, over) = (code.target(), code.target());
                code.lab(label::PLAYER).block(body, 9, 0).op(OPEN).jump(over);
                code.place(body).push(3).op(THROW);
                code.place(over);
            },
            |code| same_label(code, label::PLAYER, CUR),
        ),
        tried(
            "RAISE that gives 24 does not raise",
            1,
            |code| _ = code.lab(label::ABOVE).op(RAISE),
            |code| same_label(code, label::PUBLIC, CUR),
        ),
        tried(
            "LABOF does not raise",
            1,
            |code| _ = code.input(record::SEALED_PLAYER).ops(&[LABOF, THROW]),
            |code| same_label(code, label::PUBLIC, CUR),
        ),
    ]
}

fn last_steps() -> Vec<Case> {
    let after = |name: &str, expected, steps| {
        let write = |code: &mut Code| {
            let handler = code.target();
            code.try_to(handler).op(POP);
            code.place(handler).end();
        };
        tuned(name, expected, write, |script| script.steps = steps)
    };
    vec![
        after("a fault caught on the last step ends spent", Expected::Ends(Ending::Spent), 2),
        after("END on the last step ends with the result", Expected::number(0), 3),
        tuned(
            "a fault on the last step ends with the fault",
            Expected::fault(20),
            |code| _ = code.ops(&[POP, END]),
            |script| script.steps = 1,
        ),
    ]
}
