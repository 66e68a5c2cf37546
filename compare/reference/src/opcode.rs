//! The instructions: their opcodes, lengths and effect on the stack's height.

use crate::limits::{LOCALS, MAX_CODE};

/// What is fixed about an instruction.
#[derive(Debug)]
pub struct Shape {
    pub name: &'static str,
    /// Bytes in the code, the opcode included.
    pub length: usize,
    pub pops: usize,
    pub pushes: usize,
}

macro_rules! opcodes {
    ($($name:ident = $byte:literal, operands $operands:literal, pops $pops:literal, pushes $pushes:literal;)*) => {
        $(pub const $name: u8 = $byte;)*
        pub const SHAPES: [Shape; OPCODES] = [
            $(Shape { name: stringify!($name), length: 1 + $operands, pops: $pops, pushes: $pushes },)*
        ];
        // The table is indexed by opcode, so its rows must stand in that order.
        const _: () = {
            let bytes: [u8; OPCODES] = [$($byte),*];
            let mut at = 0;
            while at < OPCODES {
                assert!(bytes[at] as usize == at);
                at += 1;
            }
        };
    };
}

pub const OPCODES: usize = 30;

// TRY leaves the stack alone, but reserves room for the two values that its
// handler is given. THROW and a sealed fault's OPEN never get as far as a pop.
opcodes! {
    END = 0x00, operands 0, pops 1, pushes 0;
    PUSH = 0x01, operands 4, pops 0, pushes 1;
    LAB = 0x02, operands 1, pops 0, pushes 1;
    GET = 0x03, operands 1, pops 0, pushes 1;
    SET = 0x04, operands 1, pops 1, pushes 0;
    POP = 0x05, operands 0, pops 1, pushes 0;
    ADD = 0x06, operands 0, pops 2, pushes 1;
    SUB = 0x07, operands 0, pops 2, pushes 1;
    LESS = 0x08, operands 0, pops 2, pushes 1;
    SAME = 0x09, operands 0, pops 2, pushes 1;
    JUMP = 0x0A, operands 2, pops 0, pushes 0;
    IFZ = 0x0B, operands 2, pops 1, pushes 0;
    CUR = 0x0C, operands 0, pops 0, pushes 1;
    CLR = 0x0D, operands 0, pops 0, pushes 1;
    RAISE = 0x0E, operands 0, pops 1, pushes 0;
    LOWER = 0x0F, operands 0, pops 1, pushes 0;
    FLOWS = 0x10, operands 0, pops 2, pushes 1;
    JOIN = 0x11, operands 0, pops 2, pushes 1;
    MEET = 0x12, operands 0, pops 2, pushes 1;
    SEAL = 0x13, operands 0, pops 2, pushes 1;
    OPEN = 0x14, operands 0, pops 1, pushes 1;
    LABOF = 0x15, operands 0, pops 1, pushes 1;
    NEW = 0x16, operands 0, pops 2, pushes 1;
    READ = 0x17, operands 0, pops 1, pushes 1;
    WRITE = 0x18, operands 0, pops 2, pushes 0;
    BLOCK = 0x19, operands 5, pops 1, pushes 1;
    TRY = 0x1A, operands 2, pops 0, pushes 2;
    DONE = 0x1B, operands 0, pops 0, pushes 0;
    THROW = 0x1C, operands 0, pops 1, pushes 0;
    INPUT = 0x1D, operands 1, pops 0, pushes 1;
}

/// Where instructions start, a bit for each byte of the code.
#[derive(Clone, Debug)]
pub struct Starts([u64; MAX_CODE / 64]);

impl Starts {
    fn add(&mut self, at: usize) {
        self.0[at / 64] |= 1 << (at % 64);
    }

    pub fn contains(&self, at: usize) -> bool {
        self.0.get(at / 64).is_some_and(|word| word >> (at % 64) & 1 == 1)
    }

    /// All of them, the last one first.
    pub fn from_the_back(&self) -> impl Iterator<Item = usize> + '_ {
        self.0.iter().enumerate().rev().flat_map(|(index, &word)| {
            let mut rest = word;
            std::iter::from_fn(move || {
                let bit = rest.checked_ilog2()?;
                rest ^= 1 << bit;
                Some(64 * index + bit as usize)
            })
        })
    }
}

/// Whether `code` stands up to refusal 7: every instruction whole, its operands
/// within limits, its targets starts of instructions, and the last one not
/// running past the end.
pub fn well_formed(code: &[u8], labels: usize, inputs: usize) -> bool {
    starts(code, labels, inputs).is_some()
}

/// Where the instructions of `code` start, if it is well formed.
pub fn starts(code: &[u8], labels: usize, inputs: usize) -> Option<Starts> {
    let mut starts = Starts([0; MAX_CODE / 64]);
    let mut at = 0;
    let mut last = None;
    while let Some(&opcode) = code.get(at) {
        let shape = SHAPES.get(opcode as usize)?;
        let operands = code.get(at + 1..at + shape.length)?;
        let within = match opcode {
            LAB => (operands[0] as usize) < labels,
            INPUT => (operands[0] as usize) < inputs,
            GET | SET => (operands[0] as usize) < LOCALS,
            _ => true,
        };
        if !within {
            return None;
        }
        starts.add(at);
        last = Some(opcode);
        at += shape.length;
    }
    let holds = matches!(last, Some(END | JUMP | THROW)) && targets_are_starts(code, &starts);
    holds.then_some(starts)
}

fn targets_are_starts(code: &[u8], starts: &Starts) -> bool {
    let mut at = 0;
    while at < code.len() {
        if matches!(code[at], JUMP | IFZ | BLOCK | TRY) && !starts.contains(target(code, at)) {
            return false;
        }
        at += SHAPES[code[at] as usize].length;
    }
    true
}

/// The target of the instruction at `at`, which has one.
pub fn target(code: &[u8], at: usize) -> usize {
    u16::from_le_bytes([code[at + 1], code[at + 2]]) as usize
}
