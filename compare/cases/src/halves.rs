//! Faults 23, 24 and 25 of every instruction that throws them, with the half of the
//! flow test that failed as their number: 1 secrecy, 2 integrity, 3 both.

use crate::{Case, Expected, Write};
use reference::opcode::*;
use reference::script::{Clauses, Code, Input, Script};
use reference::value::{Ending, Fault, Value};

pub fn cases() -> Vec<Case> {
    [targets(), lowered(), raised(), caught(), sealed(), bounds()].concat()
}

/// Where the formulas of a label lie to those of [`start`] and [`clearance`].
#[derive(Clone, Copy)]
struct Position {
    name: &'static str,
    secrecy: &'static [u8],
    integrity: &'static [u8],
}

/// Above the start and below the clearance: no test fails.
const WITHIN: Position = Position { name: "within", secrecy: &[1, 2], integrity: &[12] };
/// The test from the start fails.
const BELOW: Position = Position { name: "below", secrecy: &[], integrity: &[4, 8] };
/// The test to the clearance fails.
const ABOVE: Position = Position { name: "above", secrecy: &[1, 2, 8, 32], integrity: &[] };
/// Both fail.
const ASIDE: Position = Position { name: "aside", secrecy: &[4], integrity: &[1] };

/// The player's, vouched for by the bench.
fn start() -> Clauses {
    Clauses::new(&[1], &[4])
}

/// The player's, the dealer's and the archive's, vouched for by the bench, the
/// archive or the record company.
fn clearance() -> Clauses {
    Clauses::new(&[1, 2, 8], &[28])
}

/// A label, and the answers of the flow tests from the start to it and from it to
/// the clearance.
#[derive(Clone, Copy)]
pub struct Target {
    secrecy: Position,
    integrity: Position,
    from_start: u32,
    to_clearance: u32,
}

const fn target(secrecy: Position, integrity: Position, from_start: u32, to_clearance: u32) -> Target {
    Target { secrecy, integrity, from_start, to_clearance }
}

/// All pairs of answers but for two times 0.
const TARGETS: [Target; 15] = [
    target(BELOW, WITHIN, 1, 0),
    target(WITHIN, BELOW, 2, 0),
    target(BELOW, BELOW, 3, 0),
    target(ABOVE, WITHIN, 0, 1),
    target(WITHIN, ABOVE, 0, 2),
    target(ABOVE, ABOVE, 0, 3),
    target(BELOW, ABOVE, 1, 2),
    target(ABOVE, BELOW, 2, 1),
    target(ASIDE, WITHIN, 1, 1),
    target(WITHIN, ASIDE, 2, 2),
    target(ASIDE, ABOVE, 1, 3),
    target(ABOVE, ASIDE, 2, 3),
    target(ASIDE, BELOW, 3, 1),
    target(BELOW, ASIDE, 3, 2),
    target(ASIDE, ASIDE, 3, 3),
];

/// So many of the first have each answer of one test, and two that differ.
const FEW: usize = 8;

/// The one of them with these answers.
pub fn answering(from_start: u32, to_clearance: u32) -> Target {
    let answers = |target: &&Target| (target.from_start, target.to_clearance) == (from_start, to_clearance);
    *TARGETS.iter().find(answers).expect("a test that fails")
}

impl Target {
    fn clauses(&self) -> Clauses {
        Clauses::new(self.secrecy.secrecy, self.integrity.integrity)
    }

    /// What the instruction throws: of two tests that fail, the first one's answer.
    pub fn fault(&self, opcode: u8) -> Fault {
        let first = if self.from_start == 0 { self.to_clearance } else { self.from_start };
        match opcode {
            LOWER => Fault::bad_lower(first),
            // The current label is within the clearance, so the raised one fails where this does.
            RAISE | OPEN | READ => Fault::above_clearance(self.to_clearance),
            _ if self.from_start != 0 => Fault::above_target(first),
            _ => Fault::above_clearance(first),
        }
    }

    fn name(&self, opcode: u8) -> String {
        let Fault { code, number } = self.fault(opcode);
        let (secrecy, integrity) = (self.secrecy.name, self.integrity.name);
        let opcode = SHAPES[opcode as usize].name;
        format!("{code} {opcode} tells {number}: secrecy {secrecy}, integrity {integrity}")
    }
}

/// The label of the target with index `at` in a file; the start and the clearance go
/// before.
pub fn label(at: u8) -> u8 {
    2 + at
}

fn sealed_record(at: u8) -> u8 {
    2 * at
}

fn reference_record(at: u8) -> u8 {
    2 * at + 1
}

pub fn labels(targets: &[Target]) -> Vec<Clauses> {
    [start(), clearance()].into_iter().chain(targets.iter().map(Target::clauses)).collect()
}

/// A sealed record and a reference for each of so many targets.
pub fn records(targets: usize) -> Vec<Input> {
    (0..targets as u8).flat_map(|at| [Input::sealed(label(at), 7), Input::reference(label(at), 8)]).collect()
}

/// The instruction on the target with index `at`.
pub fn overstep(code: &mut Code, opcode: u8, at: u8) {
    match opcode {
        SEAL | NEW => _ = code.push(1).lab(label(at)).op(opcode),
        WRITE => _ = code.push(1).input(reference_record(at)).op(opcode),
        OPEN => _ = code.input(sealed_record(at)).op(opcode),
        READ => _ = code.input(reference_record(at)).op(opcode),
        BLOCK => {
            let body = code.target();
            code.lab(label(at)).block(body, 2, 0).place(body);
        }
        _ => _ = code.lab(label(at)).op(opcode),
    }
}

fn end(code: &mut Code) {
    code.push(1).end();
}

/// A case whose file has the start, the clearance and `target`.
fn on(name: impl Into<String>, target: Target, expected: Expected, write: impl FnOnce(&mut Code)) -> Case {
    let mut code = Code::new();
    write(&mut code);
    let records = records(1);
    let places = records.len() as u16 + 3;
    let script = Script { labels: labels(&[target]), records, code: code.bytes(), steps: 100, places };
    Case { name: name.into(), file: script.bytes(), expected }
}

/// The instruction faults, and nothing catches it.
fn uncaught(opcode: u8, target: Target) -> Case {
    on(target.name(opcode), target, Expected::thrown(target.fault(opcode)), |code| {
        overstep(code, opcode, 0);
        end(code);
    })
}

/// 23, or 24 if that test does not fail.
fn targets() -> Vec<Case> {
    let of = |opcode: u8, targets: &[Target]| -> Vec<Case> {
        targets.iter().map(|&target| uncaught(opcode, target)).collect()
    };
    let few = &TARGETS[..FEW];
    [of(SEAL, &TARGETS), of(NEW, few), of(WRITE, few), of(BLOCK, few)].concat()
}

fn lowered() -> Vec<Case> {
    TARGETS.iter().map(|&target| uncaught(LOWER, target)).collect()
}

/// 24 of the label that the instruction would raise to. What is within the clearance is
/// above the current label all the same, so that the test to that one would tell more.
fn raised() -> Vec<Case> {
    let above = || TARGETS[..FEW].iter().filter(|target| target.to_clearance != 0);
    [RAISE, OPEN, READ]
        .iter()
        .flat_map(|&opcode| above().map(move |&target| uncaught(opcode, target)))
        .collect()
}

/// What a handler gets on top of the stack.
fn caught() -> Vec<Case> {
    let tried = |opcode: u8, target: Target, result: u32, pops: Write| {
        let name = format!("caught, {result}: {}", target.name(opcode));
        on(name, target, Expected::number(result), |code| {
            let handler = code.target();
            code.try_to(handler);
            overstep(code, opcode, 0);
            end(code);
            code.place(handler);
            pops(code);
            code.end();
        })
    };
    let number = |_: &mut Code| ();
    let below = |code: &mut Code| _ = code.op(POP);
    vec![
        tried(SEAL, answering(3, 0), 3, number),
        tried(WRITE, answering(1, 0), 1, number),
        tried(BLOCK, answering(2, 1), 2, number),
        tried(NEW, answering(0, 2), 2, number),
        tried(RAISE, answering(0, 1), 1, number),
        tried(OPEN, answering(0, 2), 2, number),
        tried(READ, answering(0, 3), 3, number),
        tried(LOWER, answering(1, 2), 1, number),
        tried(LOWER, answering(2, 1), 2, number),
        tried(LOWER, answering(3, 0), 3, number),
        tried(LOWER, answering(3, 0), 25, below),
        tried(OPEN, answering(0, 3), 24, below),
    ]
}

/// A block with the current label as its bound, and then `after`; the body's
/// instruction faults.
fn in_block(name: &str, opcode: u8, target: Target, expected: Expected, after: Write) -> Case {
    on(name, target, expected, |code| {
        let body = code.target();
        code.op(CUR).block(body, 9, 0);
        after(code);
        code.end().place(body);
        overstep(code, opcode, 0);
        end(code);
    })
}

/// A body's fault is sealed with its number, and OPEN throws it with that.
fn sealed() -> Vec<Case> {
    let opened = |name: &str, opcode: u8, target: Target, fault: Fault| {
        let name = format!("OPEN throws a sealed {name}");
        in_block(&name, opcode, target, Expected::thrown(fault), |code| _ = code.op(OPEN))
    };
    let caught = |name: &str, opcode: u8, target: Target, number: u32| {
        in_block(name, opcode, target, Expected::number(number), |code| {
            let handler = code.target();
            code.try_to(handler).op(OPEN).place(handler);
        })
    };
    let handle = Expected::Ends(Ending::Result(Value::Sealed(2)));
    vec![
        in_block("a sealed 24 of integrity", OPEN, answering(0, 2), handle, |_| ()),
        opened("24 of integrity", OPEN, answering(0, 2), Fault::above_clearance(2)),
        opened("24 of secrecy", RAISE, answering(0, 1), Fault::above_clearance(1)),
        opened("23 of both halves", SEAL, answering(3, 0), Fault::above_target(3)),
        opened("25 of both halves", LOWER, answering(3, 1), Fault::bad_lower(3)),
        opened("25 of integrity", LOWER, answering(2, 1), Fault::bad_lower(2)),
        caught("the number of a sealed 24, caught", OPEN, answering(0, 2), 2),
        caught("the number of a sealed 23, caught", NEW, answering(2, 1), 2),
    ]
}

/// 31 has the number 0, whatever half of the final label fails the bound, and also
/// over a fault that has another.
fn bounds() -> Vec<Case> {
    let raises: [(&str, &'static [u8], &'static [u8]); 3] =
        [("secrecy", &[1, 2], &[4]), ("integrity", &[1], &[12]), ("both halves", &[1, 2], &[12])];
    let bounded = |name: String, secrecy, integrity, last: Write| {
        let position = |name| Position { name, secrecy, integrity };
        let within = target(position("within"), position("within"), 0, 0);
        on(name, within, Expected::fault(31), |code| {
            let body = code.target();
            code.op(CUR).block(body, 9, 1).ops(&[OPEN, END]);
            code.place(body).lab(label(0)).op(RAISE);
            last(code);
            end(code);
        })
    };
    let mut cases = Vec::new();
    for (half, secrecy, integrity) in raises {
        cases.push(bounded(format!("31 past the bound by {half}"), secrecy, integrity, |_| ()));
    }
    // The body is above the start by now, which the clearance must not be lowered to.
    cases.push(bounded("31 over a 25 of both halves".into(), &[1, 2], &[12], |code| {
        code.lab(0).op(LOWER);
    }));
    cases
}
