//! A quote whose rules can be changed one by one. With the paper's rules it answers as
//! the reference does, with which it shares the table of instructions and no more.

use crate::loader::{part, Header, Loader, PAPER as LOADER};
use reference::opcode::*;
use reference::Quote;
use std::collections::{BTreeMap, BTreeSet};

/// An instruction, as the sweep through the code finds it.
#[derive(Clone, Copy, Debug)]
pub struct Instruction {
    pub opcode: u8,
    pub at: usize,
    /// Where the next one starts.
    pub next: usize,
    /// Where its target is, if it has one.
    pub target: usize,
    /// What it lends, if it is a BLOCK.
    pub lends: Quote,
}

/// The rules of the quote.
#[derive(Clone, Debug)]
pub struct Quoter {
    /// The order in which the refusals are looked for.
    pub order: &'static [u8],
    /// For 1 to 7.
    pub loader: Loader,
    /// For 11: whether an instruction may be there.
    pub allows: fn(&Instruction) -> bool,
    /// Whether check 11 looks at an instruction that a path comes to, or that none does.
    pub looks_at: fn(&Instruction, reached: bool) -> bool,
    /// Whether the bytes of the code hold no reason for 11 as they are.
    pub allows_bytes: fn(code: &[u8]) -> bool,
    /// What an instruction costs; the second is what its target costs, and all from there.
    pub cost: fn(&Instruction, Quote) -> Quote,
    /// Where a path goes on.
    pub ways: fn(&Instruction) -> Vec<usize>,
    /// Of two ways from one instruction.
    pub either: fn(Quote, Quote) -> Quote,
    /// What is told of the quote.
    pub told: fn(Quote, &Header) -> Quote,
}

/// The paper's rules.
pub const PAPER: Quoter = Quoter {
    order: &[1, 2, 3, 4, 5, 6, 7, 11],
    loader: LOADER,
    allows: |one| one.opcode != TRY && (!is_aimed(one) || one.target > one.at),
    looks_at: |_, _| true,
    allows_bytes: |_| true,
    cost: |one, _| own_cost(one),
    ways: own_ways,
    either: |one, other| Quote { steps: one.steps.max(other.steps), places: one.places.max(other.places) },
    told: |quote, _| quote,
};

/// Whether the instruction goes to its target, or has its body there.
pub fn is_aimed(one: &Instruction) -> bool {
    [JUMP, IFZ, BLOCK].contains(&one.opcode)
}

/// What an instruction costs by the paper.
pub fn own_cost(one: &Instruction) -> Quote {
    let places = u32::from([SEAL, NEW, BLOCK].contains(&one.opcode));
    Quote { steps: 1 + one.lends.steps, places: places + one.lends.places }
}

/// Where a path goes on by the paper.
pub fn own_ways(one: &Instruction) -> Vec<usize> {
    match one.opcode {
        END | THROW => vec![],
        JUMP => vec![one.target],
        IFZ => vec![one.target, one.next],
        _ => vec![one.next],
    }
}

/// Both, and no more than 32 bits hold: some wrong rules have no other bound.
pub fn sum(one: Quote, other: Quote) -> Quote {
    Quote { steps: one.steps.saturating_add(other.steps), places: one.places.saturating_add(other.places) }
}

impl Quoter {
    /// The quote, or the refusal that is returned.
    pub fn quote(&self, file: &[u8]) -> Result<Quote, u8> {
        let header = Header::of(file);
        let code = part(file, header.code_at, header.code);
        let sweep = sweep(code);
        let applies = |&number: &u8| match number {
            11 => !(self.allows_bytes)(code) || !self.all_allowed(&sweep),
            _ => self.loader.applies(number, file, &header),
        };
        match self.order.iter().copied().find(applies) {
            Some(refusal) => Err(refusal),
            None => Ok((self.told)(self.most(&sweep), &header)),
        }
    }

    fn all_allowed(&self, sweep: &[Instruction]) -> bool {
        let reached = reached(sweep);
        sweep.iter().all(|one| (self.allows)(one) || !(self.looks_at)(one, reached.contains(&one.at)))
    }

    /// The most that paths from the code's start cost.
    fn most(&self, sweep: &[Instruction]) -> Quote {
        let mut from: BTreeMap<usize, Quote> = BTreeMap::new();
        for one in sweep.iter().rev() {
            // A way out of the code, or back, adds nothing.
            let ways = (self.ways)(one).into_iter().filter_map(|way| from.get(&way).copied());
            let rest = ways.reduce(self.either).unwrap_or_default();
            let target = from.get(&one.target).copied().unwrap_or_default();
            from.insert(one.at, sum((self.cost)(one, target), rest));
        }
        from.get(&0).copied().unwrap_or_default()
    }
}

/// The instructions from front to back, up to one that is unknown or cut.
fn sweep(code: &[u8]) -> Vec<Instruction> {
    let mut sweep = Vec::new();
    let mut at = 0;
    while let Some(&opcode) = code.get(at) {
        let Some(shape) = SHAPES.get(usize::from(opcode)) else { break };
        let next = at + shape.length;
        let Some(operands) = code.get(at + 1..next) else { break };
        let byte = |at: usize| operands.get(at).map_or(0, |&byte| u32::from(byte));
        let lends = match opcode {
            BLOCK => Quote { steps: byte(2) + 256 * byte(3), places: byte(4) },
            _ => Quote::default(),
        };
        let target = (byte(0) + 256 * byte(1)) as usize;
        sweep.push(Instruction { opcode, at, next, target, lends });
        at = next;
    }
    sweep
}

/// Where the instructions start that some path comes to.
fn reached(sweep: &[Instruction]) -> BTreeSet<usize> {
    let by_start: BTreeMap<usize, &Instruction> = sweep.iter().map(|one| (one.at, one)).collect();
    let mut reached = BTreeSet::new();
    let mut waiting = vec![0];
    while let Some(at) = waiting.pop() {
        let Some(one) = by_start.get(&at) else { continue };
        if reached.insert(at) {
            waiting.extend(own_ways(one));
        }
    }
    reached
}
