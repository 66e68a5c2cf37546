//! Check 7: the code. Operands of zeros are in order wherever there is a record,
//! so that code is wrong for the one reason that a case is about.

use crate::Answer::{self, Loaded, Refused};
use crate::{case, plain_but, set_records, Case};
use reference::opcode::*;
use reference::script::Clauses;

pub fn cases() -> Vec<Case> {
    [
        opcodes(),
        cut_operands(),
        label_indices(),
        input_indices(),
        locals(),
        targets(),
        far_targets(),
        unreached(),
        free_operands(),
        last_instructions(),
    ]
    .concat()
}

fn file(labels: usize, records: usize, code: Vec<u8>) -> Vec<u8> {
    plain_but(|script| {
        script.labels.resize(labels, Clauses::default());
        set_records(script, records);
        script.code = code;
    })
}

/// A case of two labels and one record.
fn coded(name: impl Into<String>, demanded: Answer, code: &[u8]) -> Case {
    case(name, demanded, file(2, 1, code.to_vec()))
}

/// An instruction whose operands are zeros.
fn with_zeros(opcode: u8) -> Vec<u8> {
    let mut instruction = vec![0; SHAPES[opcode as usize].length];
    instruction[0] = opcode;
    instruction
}

fn every_opcode() -> impl Iterator<Item = (u8, &'static str)> {
    (0u8..).zip(SHAPES.iter().map(|shape| shape.name))
}

fn ends_code(opcode: u8) -> bool {
    [END, JUMP, THROW].contains(&opcode)
}

const UNKNOWN: [u8; 6] = [0x1E, 0x1F, 0x20, 0x3D, 0x80, 0xFF];

fn opcodes() -> Vec<Case> {
    let mut cases = Vec::new();
    for (opcode, name) in every_opcode() {
        cases.push(case(
            format!("{name}'s opcode alone"),
            Answer::unless([END, THROW].contains(&opcode), 7),
            file(2, 0, vec![opcode]),
        ));
        cases.push(coded(format!("{name} before END"), Loaded, &[with_zeros(opcode), vec![END]].concat()));
    }
    for opcode in UNKNOWN {
        cases.push(case(format!("opcode {opcode:02x} alone"), Refused(7), file(2, 0, vec![opcode])));
        cases.push(coded(format!("opcode {opcode:02x} before END"), Refused(7), &[opcode, END]));
        cases.push(coded(format!("opcode {opcode:02x} behind END"), Refused(7), &[END, opcode]));
    }
    cases
}

fn cut_operands() -> Vec<Case> {
    let cut = |(opcode, name): (u8, &str)| {
        let whole = with_zeros(opcode);
        let cut = |length: usize| {
            let code = [&[END], &whole[..length]].concat();
            coded(format!("{name} cut to {} operand bytes", length - 1), Refused(7), &code)
        };
        (1..whole.len()).map(cut).collect::<Vec<_>>()
    };
    every_opcode().flat_map(cut).collect()
}

/// An instruction whose operand is an index, of `count` things that the file has.
fn indexed(name: &str, opcode: u8, (index, count): (u8, u8), file: fn(usize, Vec<u8>) -> Vec<u8>) -> Case {
    let code = vec![opcode, index, END];
    case(format!("{name} {index} of {count}"), Answer::unless(index < count, 7), file(count.into(), code))
}

fn label_indices() -> Vec<Case> {
    [(0, 2), (1, 2), (2, 2), (255, 2), (2, 3), (3, 3), (31, 32), (32, 32)]
        .map(|index| indexed("LAB", LAB, index, |labels, code| file(labels, 0, code)))
        .to_vec()
}

fn input_indices() -> Vec<Case> {
    [(0, 0), (0, 1), (1, 1), (2, 1), (2, 3), (3, 3), (255, 3)]
        .map(|index| indexed("INPUT", INPUT, index, |records, code| file(2, records, code)))
        .to_vec()
}

fn locals() -> Vec<Case> {
    let local = |name: &str, opcode: u8, local: u8| {
        case(format!("{name} {local}"), Answer::unless(local <= 15, 7), file(2, 0, vec![opcode, local, END]))
    };
    [0, 15, 16, 17, 255]
        .into_iter()
        .flat_map(|index| [local("GET", GET, index), local("SET", SET, index)])
        .collect()
}

/// PUSH, an instruction with a target, END, END: every target there can be.
fn targets() -> Vec<Case> {
    let aimed = |opcode: u8, target: usize| {
        let [low, high] = (target as u16).to_le_bytes();
        let mut instruction = with_zeros(opcode);
        instruction[1] = low;
        instruction[2] = high;
        if let Some(steps) = instruction.get_mut(3) {
            *steps = 1;
        }
        let code = [with_zeros(PUSH), instruction, vec![END, END]].concat();
        let length = code.len();
        let demanded = Answer::unless([0, 5, length - 2, length - 1].contains(&target), 7);
        let name = format!("{} to {target} of {length}", SHAPES[opcode as usize].name);
        case(name, demanded, file(2, 0, code))
    };
    let every = |opcode: u8| {
        let length = 5 + SHAPES[opcode as usize].length + 2;
        (0..=length + 1).chain([261, 65_535]).map(move |target| aimed(opcode, target)).collect::<Vec<_>>()
    };
    [JUMP, IFZ, BLOCK, TRY].into_iter().flat_map(every).collect()
}

/// A jump to the end of long code.
fn far_targets() -> Vec<Case> {
    let jump = |target: u16, length: usize| {
        let mut code = vec![END; length];
        code[0] = JUMP;
        code[1..3].copy_from_slice(&target.to_le_bytes());
        let demanded = Answer::unless((target as usize) < length, 7);
        case(format!("JUMP to {target} of {length}"), demanded, file(2, 0, code))
    };
    [(255, 256), (256, 256), (256, 258), (4095, 4096), (4096, 4096)]
        .map(|(target, length)| jump(target, length))
        .to_vec()
}

/// Code behind a jump, an END or a THROW is checked too.
fn unreached() -> Vec<Case> {
    const JUMP_OVER_1: [u8; 3] = [JUMP, 4, 0];
    const JUMP_OVER_2: [u8; 3] = [JUMP, 5, 0];
    const JUMP_OVER_3: [u8; 3] = [JUMP, 6, 0];
    let unreached = |name: &str, demanded, front: &[u8], code: &[u8]| {
        case(format!("unreached {name}"), demanded, file(2, 0, [front, code, &[END]].concat()))
    };
    vec![
        unreached("instruction", Loaded, &JUMP_OVER_1, &[POP]),
        unreached("unknown opcode", Refused(7), &JUMP_OVER_1, &[0x1E]),
        unreached("LAB in order", Loaded, &JUMP_OVER_2, &[LAB, 1]),
        unreached("LAB 2 of 2", Refused(7), &JUMP_OVER_2, &[LAB, 2]),
        unreached("INPUT 0 of 0", Refused(7), &JUMP_OVER_2, &[INPUT, 0]),
        unreached("GET 16", Refused(7), &JUMP_OVER_2, &[GET, 16]),
        unreached("SET 16", Refused(7), &JUMP_OVER_2, &[SET, 16]),
        unreached("JUMP into an operand", Refused(7), &JUMP_OVER_3, &[JUMP, 1, 0]),
        unreached("IFZ behind the code", Refused(7), &JUMP_OVER_3, &[IFZ, 7, 0]),
        unreached("TRY into itself", Refused(7), &JUMP_OVER_3, &[TRY, 4, 0]),
        unreached("GET 16 behind END", Refused(7), &[END], &[GET, 16]),
        unreached("GET 16 behind THROW", Refused(7), &[THROW], &[GET, 16]),
        unreached("LAB 2 of 2 behind END", Refused(7), &[END], &[LAB, 2]),
        unreached("JUMP into an operand behind END", Refused(7), &[END], &[JUMP, 2, 0]),
    ]
}

/// Operands that are not limited, or that look like opcodes.
fn free_operands() -> Vec<Case> {
    let coded = |name: &str, demanded, code: &[u8]| case(name, demanded, file(2, 0, code.to_vec()));
    vec![
        coded("a jump to itself", Loaded, &[JUMP, 0, 0]),
        coded("a jump into itself", Refused(7), &[JUMP, 1, 0]),
        coded("PUSH of unknown opcodes", Loaded, &[PUSH, 255, 255, 255, 255, END]),
        coded("PUSH of a LAB", Loaded, &[PUSH, LAB, 9, LAB, 9, END]),
        coded("JUMP to the END in a PUSH", Refused(7), &[PUSH, END, END, END, END, JUMP, 1, 0]),
        coded("BLOCK with most steps and places", Loaded, &[BLOCK, 6, 0, 255, 255, 255, END]),
        coded("BLOCK whose body is itself", Loaded, &[BLOCK, 0, 0, 1, 0, 0, END]),
        coded("TRY whose handler is itself", Loaded, &[TRY, 0, 0, END]),
    ]
}

fn last_instructions() -> Vec<Case> {
    let last = |(opcode, name): (u8, &str)| {
        let code = [vec![END], with_zeros(opcode)].concat();
        coded(format!("{name} last"), Answer::unless(ends_code(opcode), 7), &code)
    };
    let mut cases: Vec<Case> = every_opcode().map(last).collect();
    let push_last = |length: usize| {
        let code = [vec![END; length - 5], with_zeros(PUSH)].concat();
        case(format!("PUSH last of {length}"), Refused(7), file(2, 0, code))
    };
    cases.extend([push_last(6), push_last(512)]);
    cases.push(case("IFZ to itself last", Refused(7), file(2, 0, vec![IFZ, 0, 0])));
    cases
}
