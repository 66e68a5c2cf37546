//! Statements that lower the clearance under frames, fault, and use the clearance that
//! stands then.

use crate::writer::{Scope, Writer, LABELS, REFERENCES, SEALED};
use reference::opcode::*;
use reference::script::Target;

impl Writer<'_> {
    /// Lowers the clearance all the way, or not.
    pub fn lower(&mut self) {
        if self.random.chance(40) {
            self.code.ops(&[CUR, LOWER]);
        } else {
            self.lower_a_little();
        }
    }

    fn lower_a_little(&mut self) {
        let label = self.any_label();
        self.lower_for(label);
    }

    /// Lowers the clearance to what the label with this index asks for, where it can.
    pub fn lower_for(&mut self, label: u8) {
        self.code.lab(label).ops(&[CUR, JOIN, CLR, MEET, LOWER]);
    }

    /// A frame that catches a fault under a lowered clearance.
    pub fn lower_and_throw(&mut self) {
        let handler = self.code.target();
        self.code.try_to(handler);
        self.lower();
        self.code.get(0).op(THROW).place(handler);
    }

    /// A few frames, each with a lower clearance than the one before it. Handlers use the
    /// clearance that they find and, at times, throw to the next.
    pub fn shut_out(&mut self, scope: Scope) {
        if self.random.chance(20) {
            self.lower_a_little();
        }
        let frames = self.random.within(1, 3);
        // Those of the newest frame first.
        let handlers: Vec<Target> = (0..frames).map(|_| self.code.target()).collect();
        for &handler in handlers[1..].iter().rev() {
            self.code.try_to(handler);
            self.lower_a_little();
        }
        self.code.try_to(handlers[0]);
        if self.random.chance(25) {
            self.lowered_probe(scope);
        } else {
            self.lower();
            self.overreach(scope);
        }
        for (newer, &handler) in handlers.iter().enumerate() {
            let after = self.code.target();
            self.code.op(DONE).jump(after).place(handler);
            self.take_fault();
            self.use_clearance();
            if self.random.chance(if newer + 1 < frames { 50 } else { 5 }) {
                self.code.get(0).op(THROW);
            }
            self.code.place(after);
        }
        self.use_clearance();
    }

    /// What a lowered clearance may forbid, or any other fault, or none.
    fn overreach(&mut self, scope: Scope) {
        match self.random.below(10) {
            0 | 1 => self.reach(),
            2 | 3 => _ = self.code.get(0).op(THROW),
            4 => {
                let label = self.any_label();
                self.code.lab(label).op(LOWER);
            }
            5 => _ = self.code.op(DONE),
            6 => self.stray(),
            7 => self.statements(scope, 1),
            8 => self.nest(scope),
            _ => (),
        }
    }

    /// Opens, reads, writes or makes a record that may be above the clearance.
    fn reach(&mut self) {
        let kind = self.random.below(2) as u8;
        match self.random.below(4) {
            0 | 1 => {
                self.push_handle(kind);
                self.code.op(if kind == 0 { OPEN } else { READ });
                self.set_number();
            }
            2 => {
                self.push_value();
                self.push_handle(1);
                self.code.op(WRITE);
            }
            _ => {
                let label = self.any_label();
                self.code.push(1).lab(label).ops(&[CUR, JOIN, SEAL, POP]);
            }
        }
    }

    /// Does something that shows which clearance stands.
    pub fn use_clearance(&mut self) {
        match self.random.below(9) {
            0 => {
                let local = self.random.pick(&LABELS);
                self.code.op(CLR).set(local);
            }
            1 => {
                let local = self.random.pick(&SEALED);
                self.code.ops(&[CLR, CUR, SEAL]).set(local);
            }
            2 => {
                let local = self.random.pick(&SEALED);
                self.code.push(1).ops(&[CLR, SEAL]).set(local);
            }
            3 => {
                let local = self.random.pick(&REFERENCES);
                self.code.push(1).ops(&[CLR, NEW]).set(local);
            }
            4 => self.reach(),
            5 | 6 => self.guard(Writer::reach),
            7 => self.overstep(),
            _ => (),
        }
    }
}
