//! Every instruction with every fault that it can throw of itself; 23, 24 and 25 are
//! in [`crate::halves`].

use crate::{case, label, record, tuned, Case, Expected, Write};
use reference::opcode::*;
use reference::script::Code;
use reference::value::Fault;

pub fn cases() -> Vec<Case> {
    [too_few_operands(), stack_full(), wrong_kind(), frames(), resources(), thrown()].concat()
}

fn faults(code: u8, opcode: u8, detail: &str, write: impl FnOnce(&mut Code)) -> Case {
    let name = format!("{code} {} {detail}", SHAPES[opcode as usize].name);
    case(name, Expected::fault(code), |script| {
        write(script);
        script.push(1).end();
    })
}

/// The bare instruction, with an operand that stands up to check 7.
pub fn bare(code: &mut Code, opcode: u8) {
    let own_start = code.here();
    match opcode {
        PUSH => code.push(1),
        LAB => code.lab(label::PUBLIC),
        GET => code.get(0),
        SET => code.set(0),
        INPUT => code.input(record::SEALED_PUBLIC),
        JUMP => code.jump(own_start),
        IFZ => code.ifz(own_start),
        TRY => code.try_to(own_start),
        BLOCK => code.block(own_start, 1, 0),
        _ => code.op(opcode),
    };
}

fn too_few_operands() -> Vec<Case> {
    let mut cases = Vec::new();
    for (opcode, shape) in (0u8..).zip(&SHAPES) {
        for height in 0..shape.pops {
            cases.push(faults(20, opcode, &format!("on {height} values"), |code| {
                (0..height).for_each(|_| bare(code, LAB));
                bare(code, opcode);
            }));
        }
    }
    cases
}

fn stack_full() -> Vec<Case> {
    let mut cases = Vec::new();
    for opcode in [PUSH, LAB, GET, CUR, CLR, INPUT] {
        cases.push(faults(21, opcode, "on 32 values", |code| {
            (0..32).for_each(|_| bare(code, GET));
            bare(code, opcode);
        }));
    }
    for height in [31, 32] {
        cases.push(faults(21, TRY, &format!("on {height} values"), |code| {
            (0..height).for_each(|_| bare(code, GET));
            bare(code, TRY);
        }));
    }
    cases.push(case("TRY on 30 values", Expected::number(1), |code| {
        (0..30).for_each(|_| bare(code, GET));
        bare(code, TRY);
        code.op(DONE).push(1).end();
    }));
    cases
}

/// Pushes a value of each kind there is.
const KINDS: [(&str, Write); 4] = [
    ("a number", |code| bare(code, PUSH)),
    ("a label", |code| bare(code, LAB)),
    ("a sealed handle", |code| bare(code, INPUT)),
    ("a reference", |code| _ = code.input(record::REFERENCE_PUBLIC)),
];

/// For an instruction: whether its deeper operand and its top one, in this
/// order, may be of each of `KINDS`.
const WANTED: [(u8, &[[bool; 4]]); 19] = [
    (ADD, &[NUMBER, NUMBER]),
    (SUB, &[NUMBER, NUMBER]),
    (LESS, &[NUMBER, NUMBER]),
    (SAME, &[NUMBER, NUMBER]),
    (IFZ, &[NUMBER]),
    (RAISE, &[LABEL]),
    (LOWER, &[LABEL]),
    (FLOWS, &[LABEL, LABEL]),
    (JOIN, &[LABEL, LABEL]),
    (MEET, &[LABEL, LABEL]),
    (SEAL, &[ANY, LABEL]),
    (OPEN, &[SEALED]),
    (LABOF, &[HANDLE]),
    (NEW, &[ANY, LABEL]),
    (READ, &[REFERENCE]),
    (WRITE, &[ANY, REFERENCE]),
    (BLOCK, &[LABEL]),
    (THROW, &[NUMBER]),
    (END, &[ANY]),
];
const ANY: [bool; 4] = [true; 4];
const NUMBER: [bool; 4] = [true, false, false, false];
const LABEL: [bool; 4] = [false, true, false, false];
const SEALED: [bool; 4] = [false, false, true, false];
const REFERENCE: [bool; 4] = [false, false, false, true];
const HANDLE: [bool; 4] = [false, false, true, true];

/// For each operand, every kind that the instruction does not want, all other
/// operands being as it wants them.
fn wrong_kind() -> Vec<Case> {
    let mut cases = Vec::new();
    for (opcode, operands) in WANTED {
        for (wrong, wanted) in operands.iter().enumerate() {
            for (kind, (name, _)) in KINDS.iter().enumerate().filter(|&(kind, _)| !wanted[kind]) {
                let detail = format!("with {name} as operand {wrong}");
                cases.push(faults(22, opcode, &detail, |code| {
                    for (at, wanted) in operands.iter().enumerate() {
                        let right = wanted.iter().position(|&wanted| wanted).expect("some kind is wanted");
                        KINDS[if at == wrong { kind } else { right }].1(code);
                    }
                    bare(code, opcode);
                }));
            }
        }
    }
    cases
}

fn frames() -> Vec<Case> {
    vec![
        faults(29, DONE, "without a frame", |code| _ = code.op(DONE)),
        case("29 TRY as the ninth frame", Expected::number(29), |code| {
            let (first, next) = (code.target(), code.target());
            // The eighth frame catches the ninth TRY's fault.
            (0..8).for_each(|_| _ = code.try_to(next));
            code.try_to(first);
            code.place(first).push(1).end();
            code.place(next).op(POP).end();
        }),
        case("eight frames", Expected::number(1), |code| {
            (0..8).for_each(|_| bare(code, TRY));
            (0..8).for_each(|_| bare(code, DONE));
            code.push(1).end();
        }),
        case("29 DONE in a body whose outer run has a frame", Expected::fault(29), |code| {
            let (body, handler) = (code.target(), code.target());
            code.try_to(handler).lab(label::PUBLIC).block(body, 9, 0).ops(&[DONE, OPEN]);
            code.place(handler).end();
            code.place(body).op(DONE).push(1).end();
        }),
    ]
}

/// Faults 26 and 27; for 28 see the nested blocks.
fn resources() -> Vec<Case> {
    let full = |opcode: u8| {
        let name = format!("26 {} without a place", SHAPES[opcode as usize].name);
        let write = |code: &mut Code| {
            code.push(1).lab(label::PUBLIC).op(opcode).end();
        };
        tuned(name, Expected::fault(26), write, |script| script.places = 7)
    };
    let block = |code: u8, detail: &str, steps: u16, places: u8| {
        faults(code, BLOCK, detail, |code| {
            let body = code.target();
            code.lab(label::PUBLIC).block(body, steps, places);
            code.place(body);
        })
    };
    vec![
        full(SEAL),
        full(NEW),
        block(26, "of all places left", 9, crate::FREE_PLACES),
        // Of 1000 steps, LAB and BLOCK take one each.
        block(27, "of one step more than are left", 999, 0),
    ]
}

fn thrown() -> Vec<Case> {
    let throw = |number: u32| {
        let expected = Expected::thrown(Fault::thrown(number));
        case(format!("30 THROW of {number}"), expected, |code| _ = code.push(number).op(THROW))
    };
    vec![throw(0), throw(8), throw(u32::MAX)]
}
