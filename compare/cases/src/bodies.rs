//! Frames in the bodies of blocks, and around them: a body's frames are its own, and at
//! its end the outer clearance comes back.

use crate::clearances::{check, lower, lowered_and_done, one, throw};
use crate::kept::{lowered_frame, player_and_dealer, two_frames};
use crate::label::{CLEARANCE, PLAYER, PUBLIC};
use crate::record::*;
use crate::{case, Case, Expected};
use reference::opcode::*;
use reference::script::Code;

pub fn cases() -> Vec<Case> {
    [tries(), regained(), uncaught(), outer_clearances()].concat()
}

/// A block with a public bound whose body `body` writes; then `after`, with the
/// outcome's handle on the stack.
fn block(code: &mut Code, after: impl FnOnce(&mut Code), body: impl FnOnce(&mut Code)) {
    let target = code.target();
    code.lab(PUBLIC).block(target, 60, 0);
    after(code);
    code.place(target);
    body(code);
}

/// Lowers the clearance, faults, and has it given back.
pub fn lower_and_throw(code: &mut Code) {
    let handler = code.target();
    code.try_to(handler);
    lower(code, PUBLIC);
    throw(code);
    code.place(handler);
}

fn open(code: &mut Code) {
    code.ops(&[OPEN, END]);
}

/// A body's frame has the clearance of its own TRY.
fn tries() -> Vec<Case> {
    vec![
        case("a body lowers and tries", Expected::number(1), |code| {
            block(code, open, |code| {
                lower(code, PLAYER);
                lower_and_throw(code);
                check(code, CLR, PLAYER);
                one(code);
            });
        }),
        case("a body tries under a lowered clearance", Expected::number(1), |code| {
            lower(code, PLAYER);
            block(code, open, |code| {
                lower_and_throw(code);
                check(code, CLR, PLAYER);
                one(code);
            });
        }),
        case("two frames of a body with two clearances", Expected::number(1), |code| {
            block(code, open, two_frames);
        }),
        case("the newer of two frames of a body has the lowered clearance", Expected::number(1), |code| {
            block(code, open, lowered_frame);
        }),
        case("DONE in a body keeps the lowered clearance", Expected::number(1), |code| {
            block(code, open, lowered_and_done);
        }),
    ]
}

/// What bodies do under the clearance that they are given back.
fn regained() -> Vec<Case> {
    let shut_out = |name: &str, bound: u8, expected| {
        case(name, expected, |code| {
            let body = code.target();
            code.lab(bound).block(body, 60, 0).ops(&[OPEN, END]).place(body);
            lower_and_throw(code);
            code.input(SEALED_PLAYER).ops(&[OPEN, END]);
        })
    };
    vec![
        case("a body's body lowers and tries", Expected::number(1), |code| {
            let (body, inner) = (code.target(), code.target());
            code.lab(PUBLIC).block(body, 90, 1).ops(&[OPEN, END]).place(body);
            player_and_dealer(code);
            code.op(LOWER).lab(PUBLIC).block(inner, 60, 0).ops(&[OPEN, END]).place(inner);
            lower(code, PLAYER);
            lower_and_throw(code);
            check(code, CLR, PLAYER);
            one(code);
        }),
        shut_out("a body opens what it was shut out of", PLAYER, Expected::number(7)),
        shut_out("a body passes the bound that it was shut out of", PUBLIC, Expected::fault(31)),
        // Every body also gets back, before its own block, what it lowers.
        case("a clearance given back in each of eight bodies", Expected::number(7), |code| {
            for rest in (1..=8).rev() {
                let body = code.target();
                lower_and_throw(code);
                code.lab(CLEARANCE).block(body, 30 * rest, rest as u8).ops(&[OPEN, END]).place(body);
            }
            lower_and_throw(code);
            code.input(SEALED_PLAYER).ops(&[OPEN, END]);
        }),
    ]
}

/// An outer frame with the starting clearance, a block under the player's, and then
/// `after`, with the outcome's handle on the stack. The frame's handler looks for its own.
fn framed(name: &str, expected: Expected, after: fn(&mut Code), body: fn(&mut Code)) -> Case {
    case(name, expected, |code| {
        let (target, handler) = (code.target(), code.target());
        code.try_to(handler);
        lower(code, PLAYER);
        code.lab(PUBLIC).block(target, 60, 0);
        after(code);
        code.place(handler).op(POP);
        check(code, CLR, CLEARANCE);
        code.end();
        code.place(target);
        body(code);
    })
}

fn stays_lowered(code: &mut Code) {
    check(code, CLR, PLAYER);
    one(code);
}

/// A body's uncaught fault reaches no outer frame.
fn uncaught() -> Vec<Case> {
    let throws = |code: &mut Code| {
        lower(code, PUBLIC);
        throw(code);
    };
    vec![
        framed("a body's uncaught fault gives nothing back", Expected::number(1), stays_lowered, throws),
        framed("a body's uncaught 24 gives nothing back", Expected::number(1), stays_lowered, |code| {
            code.input(SEALED_DEALER).ops(&[OPEN, END]);
        }),
        framed(
            "a body's uncaught fault once its frame has caught",
            Expected::number(1),
            stays_lowered,
            |code| {
                lower_and_throw(code);
                throw(code);
            },
        ),
        framed(
            "a body's fault, then one of the outer run",
            Expected::number(22),
            |code| {
                check(code, CLR, PLAYER);
                code.op(THROW);
            },
            throws,
        ),
        framed("a body's fault, opened under the outer frame", Expected::number(30), open, throws),
    ]
}

/// However a body leaves its own clearance, the outer one comes back.
fn outer_clearances() -> Vec<Case> {
    let ends = |name: &str, body| framed(name, Expected::number(1), stays_lowered, body);
    vec![
        framed(
            "a body's frame, then a fault of the outer run",
            Expected::number(22),
            |code| _ = code.op(THROW),
            |code| {
                lower_and_throw(code);
                one(code);
            },
        ),
        ends("a body ends where its clearance was given back", |code| {
            lower_and_throw(code);
            one(code);
        }),
        ends("a body ends under a frame of its own", |code| {
            let handler = code.target();
            code.try_to(handler);
            lower(code, PUBLIC);
            code.place(handler);
            one(code);
        }),
        ends("a spent body under a frame of its own", |code| {
            let (handler, again) = (code.target(), code.target());
            code.try_to(handler);
            lower(code, PUBLIC);
            code.place(again).jump(again);
            code.place(handler);
            one(code);
        }),
    ]
}
