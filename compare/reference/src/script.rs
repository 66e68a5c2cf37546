//! Writing files: a small assembler, for tests and generators.

use crate::limits::{header, input};
use crate::opcode::*;

/// The parts of a file, to be put together by [`Script::bytes`]. Nothing is
/// checked, so that files to be refused can be written too.
#[derive(Clone, Debug)]
pub struct Script {
    pub labels: Vec<Clauses>,
    pub records: Vec<Input>,
    pub code: Vec<u8>,
    pub steps: u16,
    pub places: u16,
}

/// The clause masks of a label.
#[derive(Clone, Debug, Default, PartialEq, Eq)]
pub struct Clauses {
    pub secrecy: Vec<u8>,
    pub integrity: Vec<u8>,
}

impl Clauses {
    pub fn new(secrecy: &[u8], integrity: &[u8]) -> Clauses {
        Clauses { secrecy: secrecy.to_vec(), integrity: integrity.to_vec() }
    }
}

#[derive(Clone, Copy, Debug, PartialEq, Eq)]
pub struct Input {
    pub kind: u8,
    pub label: u8,
    pub number: u32,
}

impl Input {
    pub fn sealed(label: u8, number: u32) -> Input {
        Input { kind: 0, label, number }
    }

    pub fn reference(label: u8, number: u32) -> Input {
        Input { kind: 1, label, number }
    }
}

impl Script {
    pub fn bytes(&self) -> Vec<u8> {
        let labels = label_section(&self.labels);
        let records_at = header::LENGTH + labels.len();
        let code_at = records_at + input::LENGTH * self.records.len();
        let mut bytes = Vec::with_capacity(code_at + self.code.len());
        for number in [
            self.labels.len(),
            header::LENGTH,
            self.records.len(),
            records_at,
            self.code.len(),
            code_at,
            self.steps.into(),
            self.places.into(),
        ] {
            bytes.extend((number as u16).to_le_bytes());
        }
        bytes.extend(labels);
        bytes.extend(record_section(&self.records));
        bytes.extend(&self.code);
        bytes
    }
}

pub fn label_section(labels: &[Clauses]) -> Vec<u8> {
    let mut bytes = Vec::new();
    for label in labels {
        bytes.extend([label.secrecy.len() as u8, label.integrity.len() as u8]);
        bytes.extend(&label.secrecy);
        bytes.extend(&label.integrity);
    }
    bytes
}

pub fn record_section(records: &[Input]) -> Vec<u8> {
    let mut bytes = Vec::new();
    for record in records {
        bytes.extend([record.kind, record.label]);
        bytes.extend(record.number.to_le_bytes());
    }
    bytes
}

/// A place in the code that instructions name before or after it is fixed.
#[derive(Clone, Copy, Debug, PartialEq, Eq)]
pub struct Target(usize);

/// Code under construction.
#[derive(Clone, Debug, Default)]
pub struct Code {
    bytes: Vec<u8>,
    targets: Vec<Option<usize>>,
    /// Where the two bytes of a target are to be filled in.
    uses: Vec<(usize, Target)>,
}

impl Code {
    pub fn new() -> Code {
        Code::default()
    }

    /// A target that is yet to be placed.
    pub fn target(&mut self) -> Target {
        self.targets.push(None);
        Target(self.targets.len() - 1)
    }

    /// Fixes `target` at the next instruction.
    pub fn place(&mut self, target: Target) -> &mut Code {
        self.targets[target.0] = Some(self.bytes.len());
        self
    }

    /// A target at the next instruction.
    pub fn here(&mut self) -> Target {
        let target = self.target();
        self.place(target);
        target
    }

    pub fn len(&self) -> usize {
        self.bytes.len()
    }

    pub fn is_empty(&self) -> bool {
        self.bytes.is_empty()
    }

    /// The code, with every target filled in.
    pub fn bytes(&self) -> Vec<u8> {
        let mut bytes = self.bytes.clone();
        for &(at, target) in &self.uses {
            let place = self.targets[target.0].expect("a target that is used is placed");
            bytes[at..at + 2].copy_from_slice(&(place as u16).to_le_bytes());
        }
        bytes
    }

    /// An instruction without operand bytes.
    pub fn op(&mut self, opcode: u8) -> &mut Code {
        self.bytes.push(opcode);
        self
    }

    /// Several instructions without operand bytes.
    pub fn ops(&mut self, opcodes: &[u8]) -> &mut Code {
        self.bytes.extend(opcodes);
        self
    }

    fn with_byte(&mut self, opcode: u8, operand: u8) -> &mut Code {
        self.bytes.extend([opcode, operand]);
        self
    }

    fn with_target(&mut self, opcode: u8, target: Target) -> &mut Code {
        self.uses.push((self.bytes.len() + 1, target));
        self.bytes.extend([opcode, 0, 0]);
        self
    }

    pub fn push(&mut self, number: u32) -> &mut Code {
        self.bytes.push(PUSH);
        self.bytes.extend(number.to_le_bytes());
        self
    }

    pub fn lab(&mut self, label: u8) -> &mut Code {
        self.with_byte(LAB, label)
    }

    pub fn get(&mut self, local: u8) -> &mut Code {
        self.with_byte(GET, local)
    }

    pub fn set(&mut self, local: u8) -> &mut Code {
        self.with_byte(SET, local)
    }

    pub fn input(&mut self, record: u8) -> &mut Code {
        self.with_byte(INPUT, record)
    }

    pub fn jump(&mut self, target: Target) -> &mut Code {
        self.with_target(JUMP, target)
    }

    pub fn ifz(&mut self, target: Target) -> &mut Code {
        self.with_target(IFZ, target)
    }

    pub fn try_to(&mut self, handler: Target) -> &mut Code {
        self.with_target(TRY, handler)
    }

    pub fn block(&mut self, body: Target, steps: u16, places: u8) -> &mut Code {
        self.with_target(BLOCK, body);
        self.bytes.extend(steps.to_le_bytes());
        self.bytes.push(places);
        self
    }

    pub fn end(&mut self) -> &mut Code {
        self.op(END)
    }
}
