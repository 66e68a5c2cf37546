//! Files that load and use much of what a file may hold.

use crate::Answer::Loaded;
use crate::{case, plain, Case};
use cases::bounds::seventy_clauses;
use cases::paper;
use reference::opcode::*;
use reference::script::{Clauses, Code, Input, Script};

pub fn cases() -> Vec<Case> {
    let mut cases = vec![
        case("every instruction", Loaded, every_instruction()),
        case("the longest file", Loaded, longest()),
        case("labels of many lengths", Loaded, many_lengths()),
    ];
    let papers = [paper::example(), paper::p9(), paper::p10(), paper::p11(), paper::p12()];
    cases.extend(papers.map(|paper| case(paper.name, Loaded, paper.file)));
    cases
}

fn every_instruction() -> Vec<u8> {
    let mut code = Code::new();
    let (middle, body) = (code.target(), code.target());
    code.push(7).lab(1).get(15).set(0).jump(middle).place(middle).ifz(middle).try_to(body);
    code.block(body, 3, 1).input(1).place(body);
    code.ops(&[POP, ADD, SUB, LESS, SAME, CUR, CLR, RAISE, LOWER, FLOWS, JOIN, MEET]);
    code.ops(&[SEAL, OPEN, LABOF, NEW, READ, WRITE, DONE, THROW, END]);
    let mut script = plain();
    script.records = vec![Input::sealed(0, 1), Input::reference(1, u32::MAX)];
    script.places = 256;
    script.code = code.bytes();
    script.bytes()
}

/// Every count at its most, every entry at its longest.
fn longest() -> Vec<u8> {
    let full = Clauses::new(&seventy_clauses(), &seventy_clauses());
    let script = Script {
        labels: vec![full; 32],
        records: vec![Input::reference(31, u32::MAX); 64],
        code: vec![END; 4096],
        steps: u16::MAX,
        places: 256,
    };
    script.bytes()
}

/// Labels of 0, 14, 28 and so on up to 70 clauses of secrecy, and the rest of 70 of integrity.
fn many_lengths() -> Vec<u8> {
    let seventy = seventy_clauses();
    let mut script = plain();
    let lengths = (0..=70).step_by(14);
    script.labels.extend(lengths.map(|count| Clauses::new(&seventy[..count], &seventy[count..])));
    script.bytes()
}
