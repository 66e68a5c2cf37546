//! Writes code: a run's statements, and behind them the bodies they call for.

use crate::parts;
use crate::random::Random;
use reference::limits::MAX_CODE;
use reference::opcode::*;
use reference::script::{Clauses, Code, Input, Target};

/// Each local keeps to one kind of value, so that most operands are of the kind
/// that is wanted.
pub const NUMBERS: [u8; 6] = [0, 1, 2, 3, 4, 5];
pub const LABELS: [u8; 3] = [6, 7, 8];
pub const SEALED: [u8; 4] = [9, 10, 11, 12];
pub const REFERENCES: [u8; 3] = [13, 14, 15];

/// What is kept free for the longest statement and all closings.
const CLOSINGS: usize = 1500;
/// How much further on a run may still start by lowering its clearance.
const STARTS: usize = 500;

pub struct Writer<'a> {
    pub random: &'a mut Random,
    pub code: Code,
    pub labels: usize,
    pub records: &'a [Input],
    /// Bodies that are called and not yet written.
    bodies: Vec<Body>,
    /// Statements that may still be written, over all runs.
    statements: usize,
    /// No statement starts past this.
    last_start: usize,
}

/// The run that is being written.
#[derive(Clone, Copy)]
pub struct Scope {
    pub steps: u16,
    pub depth: usize,
}

struct Body {
    target: Target,
    scope: Scope,
    manner: Manner,
}

/// How a run starts, or goes on after a few statements.
#[derive(Clone, Copy, PartialEq, Eq)]
pub enum Manner {
    Plain,
    /// By opening a record and branching on it.
    Curious,
    /// By leaving something behind, then opening the input record with this
    /// index and, as its number is, doing one thing that might show outside.
    Telling(u8),
    /// By lowering the clearance and, mostly, faulting.
    Lowering,
}

pub fn code(random: &mut Random, labels: &[Clauses], records: &[Input], steps: u16) -> Vec<u8> {
    let statements = random.within(8, 50);
    let mut writer = Writer::new(random, labels, records, statements, MAX_CODE - CLOSINGS);
    writer.fill_locals();
    let scope = Scope { steps, depth: 0 };
    let before = writer.random.below(4);
    writer.statements(scope, before);
    if writer.random.chance(40) {
        writer.probe(scope);
    }
    if writer.random.chance(30) {
        writer.shut_out(scope);
    }
    let manner = writer.any_manner();
    writer.start(scope, manner);
    let after = writer.random.within(1, 6);
    writer.statements(scope, after);
    writer.finish(scope);
    writer.bodies();
    writer.code.bytes()
}

impl<'a> Writer<'a> {
    pub fn new(
        random: &'a mut Random,
        labels: &[Clauses],
        records: &'a [Input],
        statements: usize,
        last_start: usize,
    ) -> Writer<'a> {
        let labels = labels.len();
        Writer { random, code: Code::new(), labels, records, bodies: Vec::new(), statements, last_start }
    }

    /// Writes the bodies that are called for, and those that they call for.
    pub fn bodies(&mut self) {
        while let Some(body) = self.bodies.pop() {
            self.body(body);
        }
    }

    /// Puts a value of the right kind into some of the locals.
    pub fn fill_locals(&mut self) {
        for local in NUMBERS {
            if self.random.chance(30) {
                let number = parts::number(self.random);
                self.code.push(number).set(local);
            }
        }
        for local in LABELS {
            let label = self.any_label();
            self.code.lab(label).set(local);
        }
        for local in SEALED {
            if let Some(record) = self.any_input(0) {
                self.code.input(record).set(local);
            }
        }
        for local in REFERENCES {
            match self.any_input(1) {
                Some(record) => self.code.input(record).set(local),
                None => self.code.get(0).ops(&[CUR, NEW]).set(local),
            };
        }
    }

    fn body(&mut self, body: Body) {
        self.code.place(body.target);
        self.start(body.scope, body.manner);
        let length = if matches!(body.manner, Manner::Telling(_)) { 0 } else { self.random.within(1, 5) };
        self.statements(body.scope, length);
        self.finish(body.scope);
    }

    pub fn any_manner(&mut self) -> Manner {
        match self.random.below(5) {
            0 => Manner::Curious,
            4 => Manner::Lowering,
            1 if !self.records.is_empty() => Manner::Telling(self.random.below(self.records.len()) as u8),
            _ => Manner::Plain,
        }
    }

    pub fn start(&mut self, scope: Scope, manner: Manner) {
        match manner {
            Manner::Plain => (),
            Manner::Curious => self.open_and_branch(scope),
            Manner::Telling(record) => self.tell(record),
            Manner::Lowering if self.code.len() > self.last_start + STARTS => (),
            Manner::Lowering => self.shut_out(scope),
        }
    }

    pub fn statements(&mut self, scope: Scope, length: usize) {
        for _ in 0..length {
            if self.statements == 0 || self.code.len() > self.last_start {
                return;
            }
            self.statements -= 1;
            if self.random.chance(35) {
                self.guard(|writer| writer.statement(scope));
            } else {
                self.statement(scope);
            }
        }
    }

    /// Writes `inner` so that its faults do not end the run.
    pub fn guard(&mut self, inner: impl FnOnce(&mut Self)) {
        let (handler, after) = (self.code.target(), self.code.target());
        self.code.try_to(handler);
        inner(self);
        self.code.op(DONE).jump(after).place(handler);
        self.take_fault();
        self.code.place(after);
    }

    /// What a handler does first: it drops the fault or keeps it.
    pub fn take_fault(&mut self) {
        if self.random.chance(50) {
            self.code.ops(&[POP, POP]);
        } else {
            self.set_number();
            self.set_number();
        }
    }

    /// The end of a run: a result of any kind, or a throw.
    pub fn finish(&mut self, scope: Scope) {
        let local = self.random.below(16) as u8;
        match self.random.below(10) {
            0 if scope.depth > 0 => self.code.get(0).op(THROW),
            1 => self.code.push(1).end(),
            2 => self.code.op(CUR).end(),
            3 => self.code.op(CLR).end(),
            4..=6 => self.code.get(0).end(),
            _ => self.code.get(local).end(),
        };
    }

    /// Notes that a body is to be written, and gives its start.
    pub fn call(&mut self, scope: Scope, manner: Manner) -> Target {
        let target = self.code.target();
        self.bodies.push(Body { target, scope, manner });
        target
    }

    pub fn any_label(&mut self) -> u8 {
        self.random.below(self.labels) as u8
    }

    /// The index of an input record of `kind`, if there is one.
    pub fn any_input(&mut self, kind: u8) -> Option<u8> {
        let of_kind: Vec<u8> =
            (0u8..).zip(self.records).filter(|(_, record)| record.kind == kind).map(|(at, _)| at).collect();
        (!of_kind.is_empty()).then(|| self.random.pick(&of_kind))
    }

    /// Pushes a label: one of the file's, a local's, or one of the run's own.
    pub fn push_label(&mut self) {
        match self.random.below(10) {
            0..=4 => {
                let label = self.any_label();
                self.code.lab(label)
            }
            5 | 6 => {
                let local = self.random.pick(&LABELS);
                self.code.get(local)
            }
            7 => self.code.op(CLR),
            _ => self.code.op(CUR),
        };
    }

    /// Pushes a label that the current one mostly flows to.
    pub fn push_target(&mut self) {
        match self.random.below(10) {
            0..=3 => _ = self.code.op(CUR),
            4 => {
                let label = self.any_label();
                self.code.lab(label).ops(&[CUR, JOIN]);
            }
            5..=7 => {
                // Between the current label and the clearance.
                let label = self.any_label();
                self.code.lab(label).ops(&[CUR, JOIN, CLR, MEET]);
            }
            _ => self.push_label(),
        }
    }

    /// Pushes a handle of `kind`, mostly from a local.
    pub fn push_handle(&mut self, kind: u8) {
        let local = self.random.pick(if kind == 0 { &SEALED[..] } else { &REFERENCES[..] });
        match self.any_input(kind) {
            Some(record) if self.random.chance(50) => self.code.input(record),
            _ => self.code.get(local),
        };
    }

    /// Pushes a value, mostly a number.
    pub fn push_value(&mut self) {
        let local =
            if self.random.chance(80) { self.random.pick(&NUMBERS) } else { self.random.below(16) as u8 };
        self.code.get(local);
    }

    pub fn set_number(&mut self) {
        let local = self.random.pick(&NUMBERS);
        self.code.set(local);
    }
}
