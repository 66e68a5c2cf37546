//! Code for the jobs of a day: they leave values and handles in input references
//! and look at what was left there.

use crate::random::Random;
use crate::writer::{Manner, Scope, Writer, NUMBERS, REFERENCES, SEALED};
use reference::opcode::*;
use reference::script::{Clauses, Input};

/// No statement of a job starts past this.
const LAST_START: usize = 300;

/// The code of a job.
pub fn code(random: &mut Random, labels: &[Clauses], records: &[Input], steps: u16) -> Vec<u8> {
    let statements = random.within(1, 6);
    let mut writer = Writer::new(random, labels, records, statements, LAST_START);
    let scope = Scope { steps, depth: 0 };
    match writer.random.below(20) {
        // One thing alone, so that no fault comes before it.
        0 | 1 => writer.raise_by_number(),
        2 | 3 => writer.make_and_look(),
        4 => writer.leave(),
        _ => writer.several(scope),
    }
    writer.finish(scope);
    writer.bodies();
    writer.code.bytes()
}

impl Writer<'_> {
    fn several(&mut self, scope: Scope) {
        // Without its own values a job has little to do, but is short.
        if self.random.chance(50) {
            self.fill_locals();
        }
        if self.random.chance(30) {
            // First, so that its places are those that an earlier job had.
            self.make_in_block();
            self.take();
        }
        for _ in 0..self.random.within(1, 4) {
            self.day_statement(scope);
        }
        let length = self.random.below(3);
        self.statements(scope, length);
        if self.random.chance(60) {
            self.leave_guarded();
        }
        if self.random.chance(35) {
            // In the open, so that the whole run is hidden from some; later jobs are
            // not.
            let manner = self.any_manner();
            self.start(scope, manner);
        }
    }

    fn day_statement(&mut self, scope: Scope) {
        match self.random.below(15) {
            0..=2 => self.leave_guarded(),
            3..=5 => self.take(),
            6 | 7 => self.take_in_block(),
            8 => {
                self.make_in_block();
                self.take();
            }
            9 => self.leave_by_number(),
            10 => self.overstep(),
            11 => self.shut_out(scope),
            12 => self.shut_out_in_block(),
            _ => self.probe(scope),
        }
    }

    fn leave_guarded(&mut self) {
        if self.random.chance(80) {
            self.guard(Writer::leave);
        } else {
            self.leave();
        }
    }

    /// The input reference to leave something in, or to look at: often the first,
    /// so that jobs meet.
    fn meeting(&mut self) -> Option<u8> {
        let first = self.records.iter().position(|record| record.kind == 1)?;
        if self.random.chance(60) {
            return Some(first as u8);
        }
        self.any_input(1)
    }

    /// Leaves a value in an input reference, mostly the handle of a new record,
    /// and of the second one as often as not.
    fn leave(&mut self) {
        let Some(reference) = self.meeting() else { return };
        if self.random.chance(50) {
            self.code.push(1).ops(&[CUR, SEAL, POP]);
        }
        let local = self.random.below(16) as u8;
        match self.random.below(10) {
            0..=2 => _ = self.code.get(local).ops(&[CUR, SEAL]),
            3..=6 => _ = self.code.get(local).ops(&[CUR, NEW]),
            7 => {
                let kind = self.random.below(2) as u8;
                self.push_handle(kind);
            }
            8 => _ = self.code.op(CUR),
            _ => self.push_value(),
        }
        self.code.input(reference).op(WRITE);
    }

    /// Looks at what is in an input reference, and further if it is a handle.
    fn take(&mut self) {
        let Some(reference) = self.meeting() else { return };
        let label = self.records[usize::from(reference)].label;
        let look = |writer: &mut Self| {
            if writer.random.chance(20) {
                writer.lower_for(label);
            }
            writer.code.input(reference);
            if writer.random.chance(10) {
                // At the reference, and not at what it holds.
                writer.code.op(LABOF);
                return writer.set_number();
            }
            writer.code.op(READ);
            match writer.random.below(6) {
                0 => _ = writer.code.op(OPEN),
                1 => _ = writer.code.op(READ),
                2 => _ = writer.code.op(LABOF),
                3 => {
                    let local = writer.random.pick(&REFERENCES);
                    writer.code.set(local).push(3).get(local).op(WRITE).get(local);
                }
                _ => (),
            }
            writer.set_number();
        };
        if self.random.chance(75) {
            self.guard(look);
        } else {
            look(self);
        }
    }

    /// A block whose body reads an input reference; its outcome is opened, left
    /// behind, or neither.
    fn take_in_block(&mut self) {
        let Some(reference) = self.meeting() else { return };
        let (body, after) = (self.code.target(), self.code.target());
        let outcome = self.random.pick(&SEALED);
        let steps = self.random.within(2, 12) as u16;
        self.guard(|writer| {
            writer.push_target();
            writer.code.block(body, steps, 1).set(outcome).jump(after);
            writer.code.place(body).input(reference).op(READ);
            if writer.random.chance(30) {
                writer.code.op(OPEN);
            }
            writer.code.end().place(after);
            match writer.random.below(4) {
                0 | 1 => {
                    writer.code.get(outcome).op(OPEN);
                    writer.set_number();
                }
                2 => _ = writer.code.get(outcome).input(reference).op(WRITE),
                _ => (),
            }
        });
    }

    /// A block whose body opens a record and, as its number is, makes another or
    /// not, in a place that an earlier job may have had a handle to.
    fn make_in_block(&mut self) {
        if self.records.is_empty() {
            return;
        }
        let record = self.random.below(self.records.len());
        let opens = if self.records[record].kind == 0 { OPEN } else { READ };
        let (body, zero, after) = (self.code.target(), self.code.target(), self.code.target());
        let opcode = self.random.pick(&[SEAL, NEW]);
        self.guard(|writer| {
            writer.push_target();
            writer.code.block(body, 20, 2).op(POP).jump(after);
            writer.code.place(body).input(record as u8).op(opens).ifz(zero);
            writer.code.push(2).ops(&[CUR, opcode, POP]).place(zero).push(1).end();
            writer.code.place(after);
        });
    }

    /// A block whose body lowers its clearance; its outcome is opened, or not.
    fn shut_out_in_block(&mut self) {
        let scope = Scope { steps: 80, depth: 1 };
        let body = self.call(scope, Manner::Lowering);
        let outcome = self.random.pick(&SEALED);
        self.guard(|writer| {
            writer.push_target();
            writer.code.block(body, scope.steps, 3).set(outcome);
            if writer.random.chance(50) {
                writer.code.get(outcome).op(OPEN);
                writer.set_number();
            }
        });
    }

    /// Ends with the label of what a handle leads to that was left, or with a fault.
    fn make_and_look(&mut self) {
        self.make_in_block();
        if let Some(reference) = self.meeting() {
            self.code.input(reference).ops(&[READ, LABOF, END]);
        }
    }

    /// Leaves a handle, opens a record and, as its number is, raises the label to that
    /// of the reference which has the handle.
    fn raise_by_number(&mut self) {
        let (Some(reference), false) = (self.meeting(), self.records.is_empty()) else { return };
        let record = self.random.below(self.records.len());
        let opens = if self.records[record].kind == 0 { OPEN } else { READ };
        let label = self.records[usize::from(reference)].label;
        let zero = self.code.target();
        self.code.push(1).ops(&[CUR, SEAL]).input(reference).op(WRITE);
        self.code.input(record as u8).op(opens).ifz(zero).lab(label).op(RAISE).place(zero);
    }

    /// Opens a record and, as its number is, leaves a handle or a number where the
    /// record's label allows it.
    fn leave_by_number(&mut self) {
        let (Some(reference), false) = (self.meeting(), self.records.is_empty()) else { return };
        let record = self.random.below(self.records.len());
        let opens = if self.records[record].kind == 0 { OPEN } else { READ };
        let (body, zero, after) = (self.code.target(), self.code.target(), self.code.target());
        let local = self.random.pick(&NUMBERS);
        self.guard(|writer| {
            writer.code.ops(&[CLR]).block(body, 20, 2).op(POP).jump(after);
            writer.code.place(body).input(record as u8).op(opens).ifz(zero);
            writer.code.push(2).ops(&[CUR, NEW]).input(reference).op(WRITE);
            writer.code.place(zero).get(local).end().place(after);
        });
    }
}
