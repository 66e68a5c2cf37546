//! The clearance that a caught fault gives back: the one that stood at TRY. Here one
//! frame at a time; for more of them see [`crate::kept`].

use crate::label::{ABOVE, CLEARANCE, DEALER, PLAYER, PUBLIC, VOUCHED};
use crate::record::*;
use crate::{case, tuned, Case, Expected, Write, FREE_PLACES};
use reference::opcode::*;
use reference::script::{Clauses, Code};
use reference::value::{Ending, Fault};

pub fn cases() -> Vec<Case> {
    [
        reached(),
        thrown(),
        by_count(),
        stays(),
        labels(),
        opened(),
        uncaught(),
        last_step(),
        vec![by_integrity()],
    ]
    .concat()
}

pub fn lower(code: &mut Code, to: u8) {
    code.lab(to).op(LOWER);
}

pub fn throw(code: &mut Code) {
    code.push(8).op(THROW);
}

/// Ends with 0 unless label `index` is the current one (CUR), or the clearance (CLR).
pub fn check(code: &mut Code, current: u8, index: u8) {
    check_pushed(code, current, |code| _ = code.lab(index));
}

/// [`check`] of the label that `push` pushes.
pub fn check_pushed(code: &mut Code, current: u8, push: impl Fn(&mut Code)) {
    let (bad, good) = (code.target(), code.target());
    push(code);
    code.op(current).op(FLOWS).ifz(bad).op(current);
    push(code);
    code.op(FLOWS).ifz(bad).jump(good);
    code.place(bad).push(0).end();
    code.place(good);
}

pub fn one(code: &mut Code) {
    code.push(1).end();
}

/// What a public clearance forbids and the starting one does not; a number is left.
const REACHES: [(u8, u32, Write); 8] = [
    (OPEN, 7, |code| _ = code.input(SEALED_PLAYER).op(OPEN)),
    (READ, 5, |code| _ = code.input(REFERENCE_PLAYER).op(READ)),
    (SEAL, 4, |code| _ = code.push(4).lab(PLAYER).ops(&[SEAL, OPEN])),
    (NEW, 4, |code| _ = code.push(4).lab(PLAYER).ops(&[NEW, READ])),
    (WRITE, 3, |code| _ = code.push(2).input(REFERENCE_PLAYER).op(WRITE).push(3)),
    (BLOCK, 3, |code| empty_block(code, PLAYER)),
    (RAISE, 3, |code| _ = code.lab(PLAYER).op(RAISE).push(3)),
    (LOWER, 3, |code| _ = code.lab(PLAYER).op(LOWER).push(3)),
];

/// A block of no steps, its outcome dropped.
fn empty_block(code: &mut Code, bound: u8) {
    let body = code.target();
    code.lab(bound).block(body, 0, 0).place(body).op(POP).push(3);
}

/// Each instruction faults under a lowered clearance and is done by the handler; and
/// without a caught fault, or with a frame of the lowered clearance, it goes on to fault.
fn reached() -> Vec<Case> {
    let mut cases = Vec::new();
    for (opcode, number, reach) in REACHES {
        let name = SHAPES[opcode as usize].name;
        let fault = if opcode == LOWER { Fault::bad_lower(1) } else { Fault::above_clearance(1) };
        cases.push(case(
            format!("{name}, shut out, is done by the handler"),
            Expected::number(number),
            |code| {
                let handler = code.target();
                code.try_to(handler);
                lower(code, PUBLIC);
                reach(code);
                code.end().place(handler).ops(&[POP, POP]);
                reach(code);
                code.end();
            },
        ));
        cases.push(case(format!("{name}, shut out, without a fault"), Expected::thrown(fault), |code| {
            let handler = code.target();
            code.try_to(handler);
            lower(code, PUBLIC);
            code.op(DONE);
            reach(code);
            code.end().place(handler);
            one(code);
        }));
    }
    cases.push(case("lowered before TRY", Expected::thrown(Fault::above_clearance(1)), |code| {
        let handler = code.target();
        lower(code, PUBLIC);
        code.try_to(handler);
        throw(code);
        code.place(handler).input(SEALED_PLAYER).ops(&[OPEN, END]);
    }));
    cases
}

/// Faults under the player's clearance, on an empty stack.
const FAULTS: [(u8, Write); 11] = [
    (20, |code| _ = code.op(POP)),
    (21, |code| {
        let again = code.here();
        code.op(CUR).jump(again);
    }),
    (22, |code| _ = code.lab(PUBLIC).op(THROW)),
    (23, |code| _ = code.push(1).lab(VOUCHED).op(SEAL)),
    (24, |code| _ = code.input(SEALED_DEALER).op(OPEN)),
    (25, |code| _ = code.lab(DEALER).op(LOWER)),
    (26, |code| opened_block(code, 0, FREE_PLACES)),
    (27, |code| opened_block(code, 1000, 0)),
    (30, throw),
    // The body opens the player's record and is not spent, or is.
    (31, |code| opened_block(code, 3, 0)),
    (32, |code| opened_block(code, 0, 0)),
];

/// A block with a public bound that opens the player's record.
fn opened_block(code: &mut Code, steps: u16, places: u8) {
    let body = code.target();
    code.lab(PUBLIC).block(body, steps, places).op(OPEN);
    code.place(body).input(SEALED_PLAYER).ops(&[OPEN, END]);
}

/// Ends with the fault's code if the starting clearance is back.
fn code_if_back(code: &mut Code) {
    code.op(POP);
    check(code, CLR, CLEARANCE);
    code.end();
}

/// Whatever the fault is.
fn thrown() -> Vec<Case> {
    let given_back = |(fault, write): (u8, Write)| {
        case(format!("{fault} gives the clearance back"), Expected::number(fault.into()), |code| {
            let handler = code.target();
            code.try_to(handler);
            lower(code, PLAYER);
            write(code);
            code.place(handler);
            code_if_back(code);
        })
    };
    FAULTS.map(given_back).to_vec()
}

/// 28 and 29 take eight bodies and eight frames.
fn by_count() -> Vec<Case> {
    vec![
        case("28 gives the clearance back", Expected::number(28), |code| {
            for rest in (1..=8).rev() {
                let body = code.target();
                code.lab(PUBLIC).block(body, 40 * rest, rest as u8).ops(&[OPEN, END]).place(body);
            }
            let handler = code.target();
            code.try_to(handler);
            lower(code, PLAYER);
            code.lab(PUBLIC).block(handler, 0, 0).place(handler);
            code_if_back(code);
        }),
        case("29 gives the clearance back", Expected::number(29), |code| {
            let handler = code.target();
            (0..8).for_each(|_| _ = code.try_to(handler));
            lower(code, PLAYER);
            code.try_to(handler).place(handler);
            code_if_back(code);
        }),
    ]
}

/// The clearance is lowered under a frame, and DONE drops it; 1 if it stays lowered.
pub fn lowered_and_done(code: &mut Code) {
    let handler = code.target();
    code.try_to(handler);
    lower(code, PLAYER);
    code.op(DONE);
    check(code, CLR, PLAYER);
    code.place(handler);
    one(code);
}

/// Nothing but a caught fault gives a clearance back.
fn stays() -> Vec<Case> {
    vec![
        case("DONE keeps the lowered clearance", Expected::number(1), lowered_and_done),
        case("END under a frame keeps the lowered clearance", Expected::number(1), |code| {
            let handler = code.target();
            code.try_to(handler);
            lower(code, PLAYER);
            code.place(handler);
            one(code);
        }),
        case("a clearance that was not lowered is given back", Expected::number(7), |code| {
            let handler = code.target();
            code.try_to(handler);
            throw(code);
            code.place(handler);
            check(code, CLR, CLEARANCE);
            code.input(SEALED_PLAYER).ops(&[OPEN, END]);
        }),
        case("the stack is cut where the clearance is given back", Expected::number(100), |code| {
            let handler = code.target();
            code.push(100).try_to(handler).push(1).push(2);
            lower(code, PLAYER);
            throw(code);
            code.place(handler).ops(&[POP, POP]);
            check(code, CLR, CLEARANCE);
            code.end();
        }),
    ]
}

/// The label is as at the throw, and what it forbids stays forbidden.
fn labels() -> Vec<Case> {
    let raised = |name: &str, expected, handle: Write| {
        case(name, expected, |code| {
            let handler = code.target();
            code.try_to(handler).input(SEALED_PLAYER).op(OPEN);
            lower(code, PLAYER);
            code.op(THROW).place(handler);
            check(code, CLR, CLEARANCE);
            handle(code);
        })
    };
    vec![
        raised("the label stays where the clearance is given back", Expected::number(1), |code| {
            check(code, CUR, PLAYER);
            one(code);
        }),
        raised("23 where the clearance is given back", Expected::thrown(Fault::above_target(1)), |code| {
            code.lab(PUBLIC).ops(&[SEAL, END]);
        }),
        raised("25 where the clearance is given back", Expected::thrown(Fault::bad_lower(1)), |code| {
            lower(code, DEALER);
            code.end();
        }),
    ]
}

/// OPEN raises the label before it throws what it found, and not with 24.
fn opened() -> Vec<Case> {
    vec![
        case("OPEN's raise stays where the clearance is given back", Expected::number(3), |code| {
            let (body, handler) = (code.target(), code.target());
            code.lab(PLAYER).block(body, 2, 0).try_to(handler);
            lower(code, PLAYER);
            code.op(OPEN).place(body).push(3).op(THROW).place(handler);
            check(code, CLR, CLEARANCE);
            check(code, CUR, PLAYER);
            code.end();
        }),
        case("24 raises nothing where the clearance is given back", Expected::number(1), |code| {
            let handler = code.target();
            code.try_to(handler);
            lower(code, PLAYER);
            code.input(SEALED_DEALER).op(OPEN).place(handler);
            check(code, CUR, PUBLIC);
            check(code, CLR, CLEARANCE);
            one(code);
        }),
    ]
}

/// A fault that no frame catches ends the run with the clearance of the throw.
fn uncaught() -> Vec<Case> {
    let thrown = Expected::thrown(Fault::thrown(8));
    vec![
        case("uncaught under a lowered clearance", thrown, |code| {
            lower(code, PLAYER);
            throw(code);
        }),
        case("uncaught once DONE has dropped the frame", thrown, |code| {
            let handler = code.target();
            code.try_to(handler);
            lower(code, PLAYER);
            code.op(DONE).place(handler);
            throw(code);
        }),
        case("uncaught once the frame has caught", thrown, |code| {
            let handler = code.target();
            code.try_to(handler);
            lower(code, PUBLIC);
            throw(code);
            code.place(handler);
            lower(code, PLAYER);
            throw(code);
        }),
    ]
}

/// TRY, LAB, LOWER, POP: the fourth step gives the clearance back.
fn last_step() -> Vec<Case> {
    let after = |name: &str, steps| {
        let write = |code: &mut Code| {
            let handler = code.target();
            code.try_to(handler);
            lower(code, PLAYER);
            code.op(POP).place(handler).end();
        };
        tuned(name, Expected::Ends(Ending::Spent), write, |script| script.steps = steps)
    };
    vec![after("spent under a lowered clearance", 3), after("spent as the clearance is given back", 4)]
}

/// The bench vouches for the start. The lowered clearance asks for that, and the record,
/// which has the label ABOVE, does not have it.
fn by_integrity() -> Case {
    let write = |code: &mut Code| {
        let (handler, reach): (_, Write) = (code.target(), |code| _ = code.input(SEALED_ABOVE).op(OPEN));
        code.try_to(handler);
        lower(code, VOUCHED);
        reach(code);
        code.place(handler).push(2).op(SAME).set(0).op(POP);
        reach(code);
        code.get(0).ops(&[ADD, END]);
    };
    // The number 2 of the first try, and the 9 of the second.
    tuned("a clearance lowered by integrity is given back", Expected::number(10), write, |script| {
        script.labels[usize::from(PUBLIC)] = script.labels[usize::from(VOUCHED)].clone();
        script.labels[usize::from(ABOVE)] = Clauses::default();
    })
}
