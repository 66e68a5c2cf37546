//! What failed flow tests tell, as points to be reached by files and by days.

use reference::run::Run;
use reference::value::Fault;

#[derive(Clone, Copy, Debug, PartialEq, Eq, PartialOrd, Ord)]
pub enum Half {
    /// This fault bore this number.
    Told(FaultCode, u32),
    /// The instruction threw it.
    ToldBy(Opcode, FaultCode, u32),
    /// This fault bore the first number, and the next test would fail with the second.
    First(FaultCode, u32, u32),
}

type Opcode = u8;
type FaultCode = u8;

/// The faults that tell which half of a flow test failed.
pub const CODES: [FaultCode; 3] = [23, 24, 25];
pub const NUMBERS: [u32; 3] = [1, 2, 3];

/// What an instruction reached that threw `fault` of itself.
pub fn reached(run: &Run, opcode: u8, Fault { code, number }: Fault) -> Vec<Half> {
    if !CODES.contains(&code) {
        return Vec::new();
    }
    let mut reached = vec![Half::Told(code, number), Half::ToldBy(opcode, code, number)];
    // The operands stay, and the label is on top but for WRITE, READ and OPEN.
    let next = run.stack.label(0).map_or(0, |target| target.flow_test(run.clearance));
    if code != 24 && next != 0 && next != number {
        reached.push(Half::First(code, number, next));
    }
    reached
}

/// What the instruction can tell with `code`, which it can throw.
pub fn told_by(opcode: u8, code: u8) -> impl Iterator<Item = Half> {
    let numbers = if CODES.contains(&code) { &NUMBERS[..] } else { &[] };
    numbers.iter().map(move |&number| Half::ToldBy(opcode, code, number))
}

/// What there is to be told by any instruction: each number with each fault, and each
/// where the next test does not fail in the same halves.
pub fn of_any() -> impl Iterator<Item = Half> {
    let told = CODES.into_iter().flat_map(|code| NUMBERS.map(|number| Half::Told(code, number)));
    let pairs = [(1, 2), (1, 3), (2, 1), (2, 3), (3, 1), (3, 2)];
    let first = |code| pairs.map(|(first, next)| Half::First(code, first, next));
    told.chain(first(23)).chain(first(25))
}
