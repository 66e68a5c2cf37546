//! Statements that are there to fault: instructions without their operands,
//! stacks and frames filled to the limit and past it.

use crate::writer::Writer;
use reference::limits::{FRAMES, STACK};
use reference::opcode::*;

impl Writer<'_> {
    pub fn stray(&mut self) {
        match self.random.below(5) {
            0 => self.fill_stack(),
            1 => self.fill_frames(),
            2 => self.exhaust_places(),
            3 => _ = self.code.op(DONE),
            _ => self.any_instruction(),
        }
    }

    /// Any instruction on whatever the stack holds, behind a value or two of
    /// any kind.
    fn any_instruction(&mut self) {
        for _ in 0..self.random.below(3) {
            let local = self.random.below(16) as u8;
            self.code.get(local);
        }
        let opcode = self.random.below(OPCODES) as u8;
        let after = self.code.target();
        let byte = self.random.below(16) as u8;
        let number = self.random.word() as u32;
        match opcode {
            PUSH => self.code.push(number),
            LAB => {
                let label = self.any_label();
                self.code.lab(label)
            }
            GET => self.code.get(byte),
            SET => self.code.set(byte),
            INPUT if self.records.is_empty() => self.code.op(CUR),
            INPUT => {
                let record = self.random.below(self.records.len()) as u8;
                self.code.input(record)
            }
            JUMP => self.code.jump(after),
            IFZ => self.code.ifz(after),
            TRY => self.code.try_to(after),
            BLOCK => self.code.block(after, byte.into(), byte),
            _ => self.code.op(opcode),
        };
        self.code.place(after);
    }

    /// A stack of about 32 values, and one more push.
    fn fill_stack(&mut self) {
        let height = self.random.within(STACK - 3, STACK + 1);
        let handler = self.code.target();
        let tried = self.random.chance(50);
        if tried {
            self.code.try_to(handler);
        }
        for _ in 0..height - 1 {
            self.code.op(CUR);
        }
        let record = self.random.below(self.records.len().max(1)) as u8;
        match self.random.below(7) {
            0 => self.code.get(0),
            1 => self.code.lab(0),
            2 => self.code.push(1),
            3 => self.code.op(CLR),
            4 if !self.records.is_empty() => self.code.input(record),
            5 => self.code.try_to(handler),
            _ => self.code.op(CUR),
        };
        if tried {
            self.code.op(DONE);
        }
        self.code.place(handler);
        for _ in 0..self.random.below(height) {
            self.code.op(POP);
        }
    }

    /// About eight frames, and as many DONEs or one more.
    fn fill_frames(&mut self) {
        let count = self.random.within(FRAMES - 1, FRAMES + 1);
        let handler = self.code.target();
        for _ in 0..count {
            self.code.try_to(handler);
        }
        for _ in 0..count + self.random.below(2) {
            self.code.op(DONE);
        }
        self.code.place(handler);
    }

    /// Makes records until there is no place left, or no step.
    fn exhaust_places(&mut self) {
        let (again, after) = (self.code.target(), self.code.target());
        let opcode = self.random.pick(&[SEAL, NEW]);
        self.code.try_to(after).place(again).push(1).ops(&[CUR, opcode, POP]).jump(again).place(after);
        if self.random.chance(70) {
            self.code.ops(&[POP, POP]);
        }
    }
}
