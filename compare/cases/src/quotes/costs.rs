//! What each instruction costs, whether a run could do it or not.

use super::{of, quoted, quoted_bytes, with_code, QuoteCase};
use reference::opcode::*;
use reference::Quote;

pub fn cases() -> Vec<QuoteCase> {
    [each(), lent(), undone(), allotments()].concat()
}

/// The instruction alone, then END. What has to stop is under the paths, and what has
/// a target here aims at the END.
fn each() -> Vec<QuoteCase> {
    let one_step = |(opcode, name): (u8, &str)| {
        let places = if matches!(opcode, SEAL | NEW) { 1 } else { 0 };
        let mut code = vec![0; SHAPES[opcode as usize].length];
        code[0] = opcode;
        code.push(END);
        quoted_bytes(format!("{name}, END"), 2, places, &code)
    };
    [
        (PUSH, "PUSH"),
        (LAB, "LAB"),
        (GET, "GET"),
        (SET, "SET"),
        (POP, "POP"),
        (ADD, "ADD"),
        (SUB, "SUB"),
        (LESS, "LESS"),
        (SAME, "SAME"),
        (CUR, "CUR"),
        (CLR, "CLR"),
        (RAISE, "RAISE"),
        (LOWER, "LOWER"),
        (FLOWS, "FLOWS"),
        (JOIN, "JOIN"),
        (MEET, "MEET"),
        (SEAL, "SEAL"),
        (OPEN, "OPEN"),
        (LABOF, "LABOF"),
        (NEW, "NEW"),
        (READ, "READ"),
        (WRITE, "WRITE"),
        (DONE, "DONE"),
        (INPUT, "INPUT"),
    ]
    .into_iter()
    .map(one_step)
    .collect()
}

/// BLOCK: 1 + n steps and k + 1 places, and END's own step.
fn lent() -> Vec<QuoteCase> {
    let lent = |name: &str, steps, places, n, k| {
        quoted(name, steps, places, |code| {
            let body = code.target();
            code.block(body, n, k).place(body).end();
        })
    };
    vec![
        lent("BLOCK of 0 steps and 0 places", 2, 1, 0, 0),
        lent("BLOCK of 1 step and 0 places", 3, 1, 1, 0),
        lent("BLOCK of 0 steps and 1 place", 2, 2, 0, 1),
        lent("BLOCK of 255 steps and 254 places", 257, 255, 255, 254),
        lent("BLOCK of 256 steps and 255 places", 258, 256, 256, 255),
        lent("BLOCK of 258 steps", 260, 1, 0x0102, 0),
        lent("BLOCK of 513 steps", 515, 1, 0x0201, 0),
        lent("BLOCK of 65,533 steps", 65_535, 1, 65_533, 0),
        lent("BLOCK of 65,534 steps", 65_536, 1, 65_534, 0),
        lent("BLOCK of 65,535 steps and 255 places", 65_537, 256, 65_535, 255),
        quoted("two BLOCKs", 2 + 7 + 9 + 1, 5 + 2, |code| {
            let body = code.target();
            code.block(body, 7, 4).block(body, 9, 1).place(body).end();
        }),
        quoted("BLOCK, SEAL and NEW", 10 + 2 + 1, 3 + 2, |code| {
            let body = code.target();
            code.block(body, 9, 2).ops(&[SEAL, NEW]).place(body).end();
        }),
    ]
}

/// What a run would fault at costs the same.
fn undone() -> Vec<QuoteCase> {
    vec![
        quoted("SEAL for want of a clearance", 4, 1, |code| {
            code.push(1).lab(4).op(SEAL).end();
        }),
        quoted("NEW to a label below the current one", 6, 1, |code| {
            code.lab(2).op(RAISE).push(1).lab(0).op(NEW).end();
        }),
        quoted("SEALs without operands, ADD between", 6, 3, |code| {
            code.ops(&[SEAL, ADD, SEAL, ADD, SEAL]).end();
        }),
        quoted("33 values on the stack, then NEW", 35, 1, |code| {
            code.ops(&[CUR; 33]).op(NEW).end();
        }),
        quoted("SEAL behind a DONE that faults", 3, 1, |code| {
            code.ops(&[DONE, SEAL]).end();
        }),
        quoted("records are made and seen", 11, 2, |code| {
            code.push(1).ops(&[CUR, SEAL, OPEN, POP]).push(2).ops(&[CUR, NEW, READ, POP]).end();
        }),
        quoted("inputs are opened, read and written", 9, 0, |code| {
            code.input(5).ops(&[OPEN, POP]).input(3).op(READ).input(3).ops(&[WRITE, CUR]).end();
        }),
    ]
}

/// The header's steps and places don't cap the quote, and input records are not in it.
fn allotments() -> Vec<QuoteCase> {
    let given = |name: &str, quote, steps: u16, places: u16, code: &[u8]| {
        let mut script = with_code(code);
        (script.steps, script.places) = (steps, places);
        of(name, Ok(quote), &script)
    };
    let three = [CUR, POP, END];
    let block = [BLOCK, 6, 0, 200, 0, 100, END];
    let mut bare = with_code(&[SEAL, NEW, END]);
    bare.records.clear();
    (bare.steps, bare.places) = (1, 0);
    vec![
        given("1 step for 3", Quote { steps: 3, places: 0 }, 1, 7, &three),
        given("2 steps for 3", Quote { steps: 3, places: 0 }, 2, 27, &three),
        given("65,535 steps for 3", Quote { steps: 3, places: 0 }, 65_535, 256, &three),
        given("no free place for SEAL", Quote { steps: 2, places: 1 }, 1000, 7, &[SEAL, END]),
        given("one free place for two", Quote { steps: 3, places: 2 }, 1000, 8, &[SEAL, NEW, END]),
        given("256 places for one", Quote { steps: 2, places: 1 }, 1000, 256, &[NEW, END]),
        given("a BLOCK that S and K can't pay", Quote { steps: 202, places: 101 }, 200, 100, &block),
        given("a BLOCK that S and K can pay", Quote { steps: 202, places: 101 }, 202, 108, &block),
        of("no records, no places", Ok(Quote { steps: 3, places: 2 }), &bare),
    ]
}
