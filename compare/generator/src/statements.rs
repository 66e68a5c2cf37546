//! The statements that scripts are made of. Each leaves the stack as it was,
//! unless it faults.

use crate::parts;
use crate::writer::{Scope, Writer, LABELS, REFERENCES, SEALED};
use reference::limits::NESTED_BLOCKS;
use reference::opcode::*;

impl Writer<'_> {
    pub fn statement(&mut self, scope: Scope) {
        match self.random.below(100) {
            0..=2 => self.arithmetic(),
            3..=5 => self.shut_out(scope),
            6..=9 => self.overstep(),
            10..=12 => self.label_arithmetic(),
            13..=20 => self.open(),
            21..=26 => self.read(),
            27..=34 => self.branch(scope),
            35..=43 => self.make(),
            44..=50 => self.write(),
            51..=62 => self.block(scope),
            63..=66 => self.probe(scope),
            67..=70 => self.move_bounds(),
            71..=76 => self.label_of(),
            77..=83 => self.try_some(scope),
            84..=86 => self.throw(),
            87..=89 => self.repeat(scope),
            90..=93 => self.pass_handle(),
            94 => self.nest(scope),
            _ => self.stray(),
        }
    }

    fn arithmetic(&mut self) {
        self.push_value();
        if self.random.chance(50) {
            let number = parts::number(self.random);
            self.code.push(number);
        } else {
            self.push_value();
        }
        let opcode = self.random.pick(&[ADD, SUB, LESS, SAME]);
        self.code.op(opcode);
        self.set_number();
    }

    fn label_arithmetic(&mut self) {
        self.push_label();
        self.push_label();
        if self.random.chance(40) {
            self.code.op(FLOWS);
            return self.set_number();
        }
        let opcode = self.random.pick(&[JOIN, MEET]);
        let local = self.random.pick(&LABELS);
        self.code.op(opcode).set(local);
    }

    fn open(&mut self) {
        self.push_handle(0);
        self.code.op(OPEN);
        self.set_number();
    }

    fn read(&mut self) {
        self.push_handle(1);
        self.code.op(READ);
        self.set_number();
    }

    /// Opens or reads a record and does one thing or another, as its number is.
    pub fn open_and_branch(&mut self, scope: Scope) {
        let kind = self.random.below(2) as u8;
        let Some(record) = self.any_input(kind) else { return };
        self.code.input(record).op(if kind == 0 { OPEN } else { READ }).set(0);
        self.branch_on(scope, 0);
    }

    fn branch(&mut self, scope: Scope) {
        let local = self.random.pick(&[0, 0, 1, 2, 3]);
        self.branch_on(scope, local);
    }

    fn branch_on(&mut self, scope: Scope, local: u8) {
        let (zero, after) = (self.code.target(), self.code.target());
        self.code.get(local).ifz(zero);
        let lengths = (self.random.below(3), self.random.below(3));
        self.statements(scope, lengths.0);
        self.code.jump(after).place(zero);
        self.statements(scope, lengths.1);
        self.code.place(after);
    }

    fn make(&mut self) {
        self.push_value();
        self.push_target();
        if self.random.chance(50) {
            let local = self.random.pick(&SEALED);
            self.code.op(SEAL).set(local);
        } else {
            let local = self.random.pick(&REFERENCES);
            self.code.op(NEW).set(local);
        }
    }

    fn write(&mut self) {
        self.push_value();
        self.push_handle(1);
        self.code.op(WRITE);
    }

    fn block(&mut self, scope: Scope) {
        let (steps, places) = self.allotment(scope);
        let inner = Scope { steps, depth: scope.depth + 1 };
        let manner = self.any_manner();
        // A body that calls bodies of its own without end would fill the code.
        let body = if scope.depth < NESTED_BLOCKS { self.call(inner, manner) } else { self.code.here() };
        self.push_target();
        self.code.block(body, steps, places);
        let local = self.random.pick(&SEALED);
        self.code.set(local);
        match self.random.below(6) {
            0 | 1 => {
                self.code.get(local).op(OPEN);
                self.set_number();
            }
            2 => {
                let label = self.random.pick(&LABELS);
                self.code.get(local).op(LABOF).set(label);
            }
            _ => (),
        }
    }

    /// Steps and places for a body: mostly well within what the run has, now
    /// and then all of it, or more.
    fn allotment(&mut self, scope: Scope) -> (u16, u8) {
        let most = usize::from(scope.steps);
        let steps = match self.random.below(12) {
            0 => self.random.below(4),
            1 => most.saturating_sub(self.random.below(40)),
            2 => self.random.below(65_536),
            3..=5 => self.random.within(1, 30),
            _ => self.random.within(most / 4, most / 2),
        };
        let places = match self.random.below(12) {
            0 => self.random.below(256),
            1 | 2 => 0,
            _ => self.random.within(1, 6),
        };
        (steps as u16, places as u8)
    }

    fn move_bounds(&mut self) {
        self.push_target();
        let opcode = self.random.pick(&[RAISE, RAISE, LOWER]);
        self.code.op(opcode);
    }

    /// A target, a new clearance or a raise, by whatever label; the fault is caught and,
    /// at times, kept.
    pub fn overstep(&mut self) {
        let (handler, after) = (self.code.target(), self.code.target());
        let label = self.any_label();
        let opcode = self.random.pick(&[SEAL, NEW, BLOCK, RAISE, LOWER, LOWER, LOWER]);
        self.code.try_to(handler);
        match opcode {
            SEAL | NEW => _ = self.code.push(1).lab(label).ops(&[opcode, POP]),
            BLOCK => {
                let body = self.code.target();
                self.code.lab(label).block(body, 0, 0).place(body).op(POP);
            }
            _ => _ = self.code.lab(label).op(opcode),
        }
        self.code.op(DONE).jump(after).place(handler);
        self.take_fault();
        self.code.place(after);
    }

    /// Takes a record's label and, at times, tells by it.
    fn label_of(&mut self) {
        let kind = self.random.below(2) as u8;
        self.push_handle(kind);
        self.code.op(LABOF);
        if self.random.chance(50) {
            self.push_label();
            self.code.op(FLOWS);
            return self.set_number();
        }
        let local = self.random.pick(&LABELS);
        self.code.set(local);
    }

    fn try_some(&mut self, scope: Scope) {
        let (handler, after) = (self.code.target(), self.code.target());
        self.code.try_to(handler);
        if self.random.chance(20) {
            self.lower();
        }
        let length = self.random.within(1, 3);
        self.statements(scope, length);
        if self.random.chance(30) {
            self.throw();
        }
        self.code.op(DONE).jump(after).place(handler);
        self.take_fault();
        let length = self.random.below(2);
        self.statements(scope, length);
        self.code.place(after);
    }

    fn throw(&mut self) {
        self.push_value();
        if self.random.chance(70) {
            self.code.op(THROW);
            return;
        }
        // Thrown from below the frame's height, the operand stays on the stack.
        let handler = self.code.target();
        self.code.try_to(handler).op(THROW).place(handler);
        self.take_fault();
        self.set_number();
    }

    /// A loop of a few rounds.
    fn repeat(&mut self, scope: Scope) {
        let (again, out) = (self.code.target(), self.code.target());
        let rounds = self.random.below(6) as u32;
        self.code.push(rounds).set(5).place(again).get(5).ifz(out);
        let length = self.random.within(1, 2);
        self.statements(scope, length);
        self.code.get(5).push(1).op(SUB).set(5).jump(again).place(out);
    }

    /// Hands a handle on by way of a record of its own.
    fn pass_handle(&mut self) {
        let kind = self.random.below(2) as u8;
        let local = self.random.pick(if kind == 0 { &SEALED[..] } else { &REFERENCES[..] });
        self.push_handle(kind);
        self.push_target();
        if self.random.chance(50) {
            self.code.ops(&[SEAL, OPEN]).set(local);
        } else {
            self.code.ops(&[NEW, READ]).set(local);
        }
    }

    /// Blocks inside one another, to the limit and one past it. Some catch a
    /// fault first, under a lowered clearance; the innermost opens a record and
    /// branches on it.
    pub fn nest(&mut self, scope: Scope) {
        let levels = self.random.within(2, 9);
        let after = self.code.target();
        let opens = self.random.chance(50);
        for level in 0..levels {
            let body = self.code.target();
            let rest = (levels - level) as u16;
            self.code.op(CUR).block(body, 14 * rest, (3 * rest) as u8);
            if opens {
                self.code.op(OPEN);
            }
            self.code.set(SEALED[0]);
            if level == 0 {
                self.code.jump(after);
            } else {
                self.code.get(SEALED[0]).end();
            }
            self.code.place(body);
            if self.random.chance(20) {
                let handler = self.code.target();
                self.code.try_to(handler).ops(&[CUR, LOWER, POP]).place(handler).ops(&[POP, POP]);
            }
        }
        self.open_and_branch(Scope { steps: 14, depth: scope.depth + levels });
        self.code.push(1).end().place(after);
    }
}
