//! All files whose code is a few instructions, whichever way their targets point.

use reference::limits::MAX_PLACES;
use reference::opcode::*;
use reference::script::{Clauses, Code, Script, Target};

/// Instructions without a target: what does its work, makes a record, faults or stops.
const PLAIN: [u8; 6] = [CUR, SEAL, NEW, DONE, END, THROW];
/// Those with one, of which there is one for each target.
const AIMED: [u8; 4] = [JUMP, IFZ, BLOCK, TRY];

/// The files of so many instructions.
pub fn files(count: usize) -> impl Iterator<Item = Vec<u8>> {
    let choices = PLAIN.len() + AIMED.len() * count;
    (0..choices.pow(count as u32)).map(move |number| file(&code(count, choices, number)))
}

/// The code whose instructions are the digits of `number`, to the base of `choices`.
fn code(count: usize, choices: usize, mut number: usize) -> Vec<u8> {
    let mut code = Code::new();
    let targets: Vec<Target> = (0..count).map(|_| code.target()).collect();
    for &here in &targets {
        code.place(here);
        instruction(&mut code, number % choices, &targets);
        number /= choices;
    }
    code.bytes()
}

fn instruction(code: &mut Code, choice: usize, targets: &[Target]) {
    let Some(aimed) = choice.checked_sub(PLAIN.len()) else {
        code.op(PLAIN[choice]);
        return;
    };
    let target = targets[aimed % targets.len()];
    match AIMED[aimed / targets.len()] {
        JUMP => code.jump(target),
        IFZ => code.ifz(target),
        TRY => code.try_to(target),
        _ => code.block(target, 2, 1),
    };
}

fn file(code: &[u8]) -> Vec<u8> {
    let script = Script {
        labels: vec![Clauses::default(), Clauses::new(&[1], &[])],
        records: vec![],
        code: code.to_vec(),
        steps: u16::MAX,
        places: MAX_PLACES as u16,
    };
    script.bytes()
}
