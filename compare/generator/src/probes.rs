//! Blocks that try to tell the outer run what they saw, and outer runs that try
//! to hear it. By the paper's rules they fail; by most wrong rules some succeed.

use crate::writer::{Manner, Scope, Writer, LABELS, NUMBERS, REFERENCES};
use reference::opcode::*;

/// Where a probe keeps the handle of its outcome.
const OUTCOME: u8 = 12;

impl Writer<'_> {
    /// A telling body with enough of everything, and then a look at what it
    /// left.
    pub fn probe(&mut self, scope: Scope) {
        if self.records.is_empty() {
            return;
        }
        let record = self.random.below(self.records.len());
        self.telling_block(scope, record);
        self.listen();
    }

    /// The same under a clearance that is lowered as far as the body allows; what is
    /// looked at is the clearance that stands then, or that of a frame.
    pub fn lowered_probe(&mut self, scope: Scope) {
        if self.records.is_empty() {
            return;
        }
        let record = self.random.below(self.records.len());
        self.lower_for(self.records[record].label);
        self.telling_block(scope, record);
        if self.random.chance(50) {
            self.code.get(0).op(THROW);
        } else {
            self.code.ops(&[CLR, CUR, NEW, POP]);
        }
    }

    fn telling_block(&mut self, scope: Scope, record: usize) {
        let inner = Scope { steps: 100.min(scope.steps / 2), depth: scope.depth + 1 };
        let body = self.call(inner, Manner::Telling(record as u8));
        if self.random.chance(60) {
            // The least bound that the body's first raise does not pass.
            self.code.lab(self.records[record].label).ops(&[CUR, JOIN]);
        } else {
            self.push_target();
        }
        self.code.block(body, inner.steps, 3).set(OUTCOME);
    }

    /// Looks at an outcome without opening it, or with the fault caught.
    fn listen(&mut self) {
        let (handler, after) = (self.code.target(), self.code.target());
        self.code.try_to(handler);
        match self.random.below(5) {
            0 => {
                let local = self.random.pick(&LABELS);
                self.code.get(OUTCOME).op(LABOF).set(local);
            }
            1 => _ = self.code.get(OUTCOME).ops(&[LABOF, CUR, NEW, POP]),
            2 => _ = self.code.ops(&[CUR, LOWER]).get(OUTCOME).ops(&[OPEN, POP]),
            3 => _ = self.code.get(OUTCOME).ops(&[OPEN, POP]),
            _ => _ = self.code.get(0).ops(&[CUR, NEW, POP]),
        }
        self.code.op(DONE).jump(after).place(handler);
        // The fault's number and code become the next things that are seen.
        self.code.set(1).set(0).get(0).ops(&[CUR, SEAL]).op(POP).place(after);
    }

    /// Leaves something behind, opens a record, acts by its number.
    pub fn tell(&mut self, record: u8) {
        if self.random.chance(50) {
            self.code.push(1).ops(&[CUR, NEW]).set(REFERENCES[0]);
        }
        let (zero, after) = (self.code.target(), self.code.target());
        let opens = if self.records[record as usize].kind == 0 { OPEN } else { READ };
        self.code.input(record).op(opens).set(0).get(0).ifz(zero);
        self.act();
        self.code.jump(after).place(zero);
        if self.random.chance(30) {
            self.act();
        }
        self.code.place(after);
    }

    /// One thing that someone else might notice.
    fn act(&mut self) {
        match self.random.below(15) {
            0 => {
                let label = self.any_label();
                self.code.lab(label).op(RAISE);
            }
            1 => {
                self.push_target();
                self.code.op(LOWER);
            }
            2 => {
                let again = self.code.here();
                self.code.jump(again);
            }
            3 => _ = self.code.get(0).op(THROW),
            4 => _ = self.code.op(THROW),
            5 => _ = self.code.push(2).ops(&[CUR, SEAL, POP]),
            6 => {
                self.code.push(2);
                self.push_handle(1);
                self.code.op(WRITE);
            }
            7 => self.open_some(),
            8 => {
                let local = self.random.pick(&NUMBERS);
                self.code.push(2).set(local);
            }
            9 => _ = self.code.ops(&[CLR, RAISE]),
            10 => self.stray(),
            11 => {
                let again = self.code.here();
                self.code.op(CUR).jump(again);
            }
            12 | 13 => self.lower_and_throw(),
            _ => _ = self.code.get(0).end(),
        }
    }

    fn open_some(&mut self) {
        let kind = self.random.below(2) as u8;
        self.push_handle(kind);
        self.code.op(if kind == 0 { OPEN } else { READ }).op(POP);
    }
}
