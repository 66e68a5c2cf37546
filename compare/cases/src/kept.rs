//! Every frame keeps a clearance of its own: frames above one another, in handlers and
//! in loops. For those of bodies see [`crate::bodies`].

use crate::clearances::{check, check_pushed, lower, one, throw};
use crate::label::{CLEARANCE, DEALER, PLAYER, PUBLIC};
use crate::record::*;
use crate::{case, Case, Expected};
use reference::opcode::*;
use reference::script::Code;
use reference::value::Fault;

pub fn cases() -> Vec<Case> {
    [frames(), dropped(), handlers(), vec![in_a_loop()]].concat()
}

/// What the player and the dealer may see together, between CLEARANCE and PLAYER.
pub fn player_and_dealer(code: &mut Code) {
    code.lab(PLAYER).lab(DEALER).op(JOIN);
}

/// Both catch, the newer one first.
pub fn two_frames(code: &mut Code) {
    let (older, newer) = (code.target(), code.target());
    code.try_to(older);
    lower(code, PLAYER);
    code.try_to(newer);
    lower(code, PUBLIC);
    throw(code);
    code.place(newer);
    check(code, CLR, PLAYER);
    throw(code);
    code.place(older);
    check(code, CLR, CLEARANCE);
    one(code);
}

/// The newer one has the lowered clearance, and catches.
pub fn lowered_frame(code: &mut Code) {
    let (older, newer) = (code.target(), code.target());
    code.try_to(older);
    lower(code, PLAYER);
    code.try_to(newer);
    throw(code);
    code.place(newer);
    check(code, CLR, PLAYER);
    code.place(older);
    one(code);
}

fn frames() -> Vec<Case> {
    vec![
        case("two frames with two clearances", Expected::number(1), two_frames),
        case("the newer of two frames has the lowered clearance", Expected::number(1), lowered_frame),
        case("three frames caught one after the other", Expected::number(104), |code| {
            let handlers = [code.target(), code.target(), code.target()];
            code.push(100).try_to(handlers[0]);
            player_and_dealer(code);
            code.op(LOWER).push(101).try_to(handlers[1]);
            lower(code, PLAYER);
            code.push(102).try_to(handlers[2]);
            lower(code, PUBLIC);
            throw(code);
            // Each stack is cut to 100 and what was pushed before its frame.
            code.place(handlers[2]).ops(&[POP, POP]);
            check(code, CLR, PLAYER);
            code.op(THROW).place(handlers[1]).ops(&[POP, POP]);
            check_pushed(code, CLR, player_and_dealer);
            code.op(THROW).place(handlers[0]).ops(&[POP, POP]);
            check(code, CLR, CLEARANCE);
            code.push(4).ops(&[ADD, END]);
        }),
        case("two frames with one handler", Expected::number(1), |code| {
            let (handler, first) = (code.target(), code.target());
            code.try_to(handler);
            lower(code, PLAYER);
            code.try_to(handler);
            lower(code, PUBLIC);
            throw(code);
            code.place(handler).get(0).ifz(first);
            check(code, CLR, CLEARANCE);
            one(code);
            code.place(first).push(1).set(0);
            check(code, CLR, PLAYER);
            throw(code);
        }),
    ]
}

/// A frame that DONE drops gives nothing back, then or later.
fn dropped() -> Vec<Case> {
    vec![
        case("the older frame's clearance once the newer is dropped", Expected::number(1), |code| {
            let (older, newer) = (code.target(), code.target());
            code.try_to(older);
            lower(code, PLAYER);
            code.try_to(newer).op(DONE);
            throw(code);
            code.place(older);
            check(code, CLR, CLEARANCE);
            code.place(newer);
            one(code);
        }),
        case("a frame in place of a dropped one", Expected::number(1), |code| {
            let (older, newer) = (code.target(), code.target());
            code.try_to(older);
            lower(code, PLAYER);
            code.try_to(newer).op(DONE);
            lower(code, PUBLIC);
            code.try_to(newer);
            throw(code);
            code.place(newer);
            check(code, CLR, PUBLIC);
            throw(code);
            code.place(older);
            check(code, CLR, CLEARANCE);
            one(code);
        }),
    ]
}

/// Handlers that try again.
fn handlers() -> Vec<Case> {
    vec![
        case("a handler tries and lowers", Expected::number(2), |code| {
            let (first, second) = (code.target(), code.target());
            code.try_to(first);
            lower(code, PUBLIC);
            throw(code);
            code.place(first).try_to(second);
            lower(code, PLAYER);
            throw(code);
            code.place(second);
            check(code, CLR, CLEARANCE);
            code.input(SEALED_DEALER).ops(&[OPEN, END]);
        }),
        case("a handler lowers and tries", Expected::thrown(Fault::above_clearance(1)), |code| {
            let (first, second) = (code.target(), code.target());
            code.try_to(first);
            lower(code, PUBLIC);
            throw(code);
            code.place(first);
            lower(code, PLAYER);
            code.try_to(second);
            lower(code, PUBLIC);
            throw(code);
            code.place(second);
            check(code, CLR, PLAYER);
            code.input(SEALED_DEALER).ops(&[OPEN, END]);
        }),
    ]
}

/// Three rounds, each of which adds 24 and seals a number for the player.
fn in_a_loop() -> Case {
    case("a clearance given back in a loop", Expected::number(72), |code| {
        let (again, out, handler) = (code.target(), code.target(), code.target());
        code.push(3).set(0).place(again).get(0).ifz(out).try_to(handler);
        lower(code, PUBLIC);
        code.input(SEALED_PLAYER).op(OPEN).place(handler).op(POP).get(1).op(ADD).set(1);
        code.push(1).lab(PLAYER).ops(&[SEAL, POP]);
        code.get(0).push(1).op(SUB).set(0).jump(again);
        code.place(out).get(1).end();
    })
}
