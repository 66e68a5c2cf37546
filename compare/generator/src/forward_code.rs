//! Writes code in which every target lies ahead: a target is named first, and fixed
//! some statements later. Each statement leaves the stack as it was, unless it faults.

use crate::parts;
use crate::random::Random;
use reference::limits::MAX_CODE;
use reference::opcode::*;
use reference::script::{Code, Input, Target};

/// What is kept free for a statement, the closings and all bodies.
const CLOSINGS: usize = 800;
/// No more targets, or bodies, than these wait to be fixed.
const MOST_TARGETS: usize = 20;
const MOST_BODIES: usize = 8;

struct Writer<'a> {
    random: &'a mut Random,
    code: Code,
    labels: usize,
    records: &'a [Input],
    /// Targets that are named and not yet fixed.
    ahead: Vec<Target>,
    /// Those of bodies that stand behind everything else.
    bodies: Vec<Target>,
}

pub fn code(random: &mut Random, labels: usize, records: &[Input]) -> Vec<u8> {
    let statements = match random.below(40) {
        0 => random.within(100, 700),
        1..=8 => random.within(10, 40),
        _ => random.within(0, 10),
    };
    let costly = random.chance(2);
    let code = Code::new();
    let mut writer = Writer { random, code, labels, records, ahead: Vec::new(), bodies: Vec::new() };
    if costly {
        writer.many_blocks();
    }
    for _ in 0..statements {
        if writer.code.len() > MAX_CODE - CLOSINGS {
            break;
        }
        writer.arrive(25);
        writer.statement();
    }
    writer.close();
    writer.code.bytes()
}

impl Writer<'_> {
    fn statement(&mut self) {
        match self.random.below(100) {
            0..=9 => self.plain(),
            10..=30 => self.branch(),
            31..=39 => self.fork(),
            40..=57 => self.make(),
            58..=73 => self.block(),
            74..=83 => self.jump(),
            84..=88 => self.stop(),
            89..=95 => self.look(),
            96 => _ = self.code.op(DONE),
            _ => self.stray(),
        }
    }

    /// Fixes some targets at the next instruction.
    fn arrive(&mut self, percent: usize) {
        while !self.ahead.is_empty() && self.random.chance(percent) {
            let at = self.random.below(self.ahead.len());
            let target = self.ahead.swap_remove(at);
            self.code.place(target);
        }
    }

    /// A target that is yet to come, of this instruction alone or of others too.
    fn target(&mut self) -> Target {
        if self.ahead.len() == MOST_TARGETS || !self.ahead.is_empty() && self.random.chance(35) {
            return self.random.pick(&self.ahead);
        }
        let target = self.code.target();
        self.ahead.push(target);
        target
    }

    fn plain(&mut self) {
        let local = self.random.below(4) as u8;
        let number = parts::number(self.random);
        let label = self.random.below(self.labels) as u8;
        let opcode = self.random.pick(&[ADD, SUB, LESS, SAME]);
        let of_labels = self.random.pick(&[FLOWS, JOIN, MEET]);
        match self.random.below(4) {
            0 => _ = self.code.push(number).set(local),
            1 => _ = self.code.get(local).push(number).op(opcode).set(local),
            2 => _ = self.code.lab(label).ops(&[CUR, of_labels, POP]),
            _ => _ = self.code.ops(&[CLR, LOWER, CUR, RAISE]),
        }
    }

    /// IFZ between a way that makes records and one that only takes its time.
    fn fork(&mut self) {
        let (target, after) = (self.code.target(), self.code.target());
        let makes_first = self.random.chance(50);
        self.number();
        self.code.ifz(target);
        self.way(makes_first);
        self.code.jump(after).place(target);
        self.way(!makes_first);
        self.code.place(after);
    }

    fn way(&mut self, makes: bool) {
        for _ in 0..self.random.within(1, 3) {
            if makes {
                self.make();
            } else {
                self.code.ops(&[CUR, CLR, FLOWS, POP, CUR, POP]);
            }
        }
    }

    /// IFZ on a number, with any target ahead.
    fn branch(&mut self) {
        self.number();
        let target = self.target();
        self.code.ifz(target);
    }

    /// Pushes a number of the script's own, or of an input record.
    fn number(&mut self) {
        let local = self.random.below(4) as u8;
        match self.random.below(6) {
            0 | 1 => {
                let number = parts::number(self.random);
                self.code.push(number);
            }
            2 => _ = self.code.get(local),
            _ => self.open(),
        }
    }

    /// Pushes the number of an input record, or any if there is none.
    fn open(&mut self) {
        if self.records.is_empty() {
            self.code.push(1);
            return;
        }
        let record = self.random.below(self.records.len());
        let opcode = if self.records[record].kind == 0 { OPEN } else { READ };
        self.code.input(record as u8).op(opcode);
    }

    fn make(&mut self) {
        let number = parts::number(self.random);
        let label = self.random.below(self.labels) as u8;
        let opcode = self.random.pick(&[SEAL, NEW]);
        self.code.push(number);
        if self.random.chance(10) {
            self.code.lab(label);
        } else {
            self.code.op(CUR);
        }
        self.code.ops(&[opcode, POP]);
    }

    /// A block whose body is part of what follows, or stands behind everything else.
    fn block(&mut self) {
        let (steps, places) = self.lent();
        let body = if self.bodies.len() < MOST_BODIES && self.random.chance(60) {
            let body = self.code.target();
            self.bodies.push(body);
            body
        } else {
            self.target()
        };
        self.code.op(CUR).block(body, steps, places).op(POP);
    }

    /// Mostly little, so that a run can pay for it.
    fn lent(&mut self) -> (u16, u8) {
        let steps = match self.random.below(16) {
            0 | 1 => 0,
            2 => 65_535,
            3 => self.random.below(65_536),
            4 => self.random.within(250, 1000),
            _ => self.random.within(1, 12),
        };
        let places = match self.random.below(16) {
            0..=3 => 0,
            4 => 255,
            5 => self.random.below(256),
            _ => self.random.within(1, 4),
        };
        (steps as u16, places as u8)
    }

    fn jump(&mut self) {
        let target = self.target();
        self.code.jump(target);
        self.arrive(75);
    }

    /// An end in the midst of the code, mostly where a path goes on elsewhere.
    fn stop(&mut self) {
        if self.ahead.is_empty() && self.random.chance(80) {
            return self.plain();
        }
        self.last();
        self.arrive(75);
    }

    /// Looks at a record, or writes to it.
    fn look(&mut self) {
        let reference = self.records.iter().position(|record| record.kind == 1);
        match (reference, self.random.below(3)) {
            (Some(record), 0) => _ = self.code.push(1).input(record as u8).op(WRITE),
            (Some(record), 1) => _ = self.code.input(record as u8).ops(&[LABOF, POP]),
            _ => {
                self.open();
                self.code.op(POP);
            }
        }
    }

    /// Any instruction without a target, on whatever the stack holds.
    fn stray(&mut self) {
        let (local, number) = (self.random.below(16) as u8, self.random.word() as u32);
        let label = self.random.below(self.labels) as u8;
        let record = self.random.below(self.records.len().max(1)) as u8;
        match self.random.below(OPCODES) as u8 {
            // Operands that look like instructions.
            PUSH if self.random.chance(50) => self.code.push(u32::from_le_bytes([TRY, JUMP, 0, 0])),
            PUSH => self.code.push(number),
            LAB => self.code.lab(label),
            GET => self.code.get(local),
            SET => self.code.set(local),
            INPUT if !self.records.is_empty() => self.code.input(record),
            JUMP | IFZ | BLOCK | TRY | INPUT => self.code.op(DONE),
            opcode => self.code.op(opcode),
        };
    }

    /// Blocks that cost more than any run is given.
    fn many_blocks(&mut self) {
        let body = self.code.target();
        self.ahead.push(body);
        let steps = self.random.pick(&[0, 1, 255, 65_535]);
        for _ in 0..self.random.within(200, 400) {
            self.code.block(body, steps, 255);
        }
    }

    fn last(&mut self) {
        match self.random.below(8) {
            0 => self.code.op(THROW),
            1 => self.code.end(),
            2 | 3 => self.code.push(8).op(THROW),
            _ => self.code.get(0).end(),
        };
    }

    /// Fixes what targets are left; then come the bodies.
    fn close(&mut self) {
        while let Some(target) = self.ahead.pop() {
            self.code.place(target);
            match self.random.below(4) {
                0 => self.plain(),
                1 => self.make(),
                2 => self.last(),
                _ => (),
            }
        }
        self.last();
        while let Some(body) = self.bodies.pop() {
            self.code.place(body);
            for _ in 0..self.random.below(4) {
                if self.random.chance(50) {
                    self.plain();
                } else {
                    self.make();
                }
            }
            self.last();
        }
    }
}
