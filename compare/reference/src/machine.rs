//! The interpreter.

use crate::file::File;
use crate::label::Label;
use crate::opcode::*;
use crate::parts::{Job, Parts};
use crate::rules::{Raiser, Rules};
use crate::run::{Frame, Run};
use crate::store::Store;
use crate::value::{Content, Ending, Fault, Kind, Record, Value};

/// Everything that a view can tell of.
#[derive(Clone, Debug)]
pub struct Finished {
    pub ending: Ending,
    pub label: Label,
    pub clearance: Label,
    pub steps_used: u16,
    pub next_place: u16,
    pub store: Store,
}

/// Runs the script of a file that stood up to checks 1 to 7.
pub fn run<R: Rules>(file: &File, rules: &R) -> Finished {
    let File { parts, job } = file;
    run_job(parts, job, Run::outermost(job, parts.record_count()), Store::new(parts), rules)
}

/// Runs a job from `run`, its start, on `store`.
pub fn run_job<R: Rules>(parts: &Parts, job: &Job, mut run: Run, mut store: Store, rules: &R) -> Finished {
    store.reserve(job.places.into());
    rules.starts(&run);
    let mut machine = Machine { code: job.code, labels: parts.labels(), store, rules };
    let ending = machine.run(&mut run);
    Finished {
        ending,
        label: run.label,
        clearance: run.clearance,
        steps_used: job.steps - run.steps_left,
        next_place: run.places.next as u16,
        store: machine.store,
    }
}

struct Machine<'a, R> {
    code: &'a [u8],
    labels: &'a [Label],
    store: Store,
    rules: &'a R,
}

/// Whether a run goes on after an instruction.
enum Next {
    On,
    /// With the result on top of the stack.
    End,
}

impl<R: Rules> Machine<'_, R> {
    fn run(&mut self, run: &mut Run) -> Ending {
        while run.steps_left > 0 {
            run.steps_left -= 1;
            let opcode = self.code[run.at];
            match self.obey(run, opcode) {
                Ok(next) => {
                    self.rules.obeyed(run, opcode, None);
                    if let Next::End = next {
                        return Ending::Result(run.stack.operand(0));
                    }
                }
                Err(fault) => {
                    self.rules.obeyed(run, opcode, Some(fault));
                    if !self.catch(run, fault) {
                        return Ending::Fault(fault);
                    }
                }
            }
        }
        Ending::Spent
    }

    /// Whether there is a frame for `fault`. Of what stood at TRY, its handler
    /// gets the clearance back and not the label.
    fn catch(&self, run: &mut Run, fault: Fault) -> bool {
        let Some(frame) = run.catch(fault) else {
            self.rules.uncaught(run);
            return false;
        };
        run.clearance = self.rules.given_back(run, frame, fault);
        self.rules.caught(run, fault);
        true
    }

    /// One instruction. Until it is sure not to fault it changes nothing, save
    /// the raise of an OPEN or READ that throws the fault it found, and where the
    /// run is in the code: after a fault that is the handler's start, or does
    /// not matter.
    #[inline]
    fn obey(&mut self, run: &mut Run, opcode: u8) -> Result<Next, Fault> {
        let shape = &SHAPES[opcode as usize];
        run.stack.admits(shape)?;
        let operand = run.at + 1;
        run.at += shape.length;
        match opcode {
            END => return Ok(Next::End),
            PUSH => run.stack.push(Value::Number(self.word(operand))),
            LAB => run.stack.push(Value::Label(self.labels[self.byte(operand)])),
            GET => run.stack.push(run.locals[self.byte(operand)]),
            SET => run.locals[self.byte(operand)] = run.stack.pop(),
            POP => run.stack.drop(1),
            ADD..=SAME => arithmetic(run, opcode)?,
            JUMP => run.at = self.short(operand).into(),
            IFZ => self.branch(run, operand)?,
            CUR => run.stack.push(Value::Label(run.label)),
            CLR => run.stack.push(Value::Label(run.clearance)),
            RAISE => self.raise(run)?,
            LOWER => self.lower(run)?,
            FLOWS..=MEET => self.compare_labels(run, opcode)?,
            SEAL => self.make(run, opcode, Kind::Sealed)?,
            NEW => self.make(run, opcode, Kind::Reference)?,
            OPEN => self.open(run, opcode, run.stack.sealed()?)?,
            READ => self.open(run, opcode, run.stack.reference()?)?,
            WRITE => self.write(run)?,
            LABOF => self.label_of(run)?,
            BLOCK => self.block(run, operand)?,
            TRY => self.try_to(run, operand)?,
            DONE => self.done(run)?,
            THROW => return Err(Fault::thrown(run.stack.number(0)?)),
            INPUT => self.input(run, operand)?,
            _ => unreachable!("check 7 knows every opcode"),
        }
        Ok(Next::On)
    }

    fn branch(&self, run: &mut Run, operand: usize) -> Result<(), Fault> {
        let zero = run.stack.number(0)? == 0;
        run.stack.drop(1);
        if zero {
            run.at = self.short(operand).into();
        }
        Ok(())
    }

    fn try_to(&self, run: &mut Run, operand: usize) -> Result<(), Fault> {
        let height = run.stack.height() as u8;
        run.frames.push(Frame { handler: self.short(operand), height, clearance: run.clearance })
    }

    fn done(&self, run: &mut Run) -> Result<(), Fault> {
        let frame = run.frames.pop().ok_or(Fault::FRAMES)?;
        self.rules.dropped(run, frame);
        Ok(())
    }

    fn input(&self, run: &mut Run, operand: usize) -> Result<(), Fault> {
        let place = self.code[operand];
        run.stack.push(Value::handle(self.record(place)?.kind, place));
        Ok(())
    }

    fn label_of(&self, run: &mut Run) -> Result<(), Fault> {
        let record = self.record(run.stack.handle()?)?;
        self.rules.passes_over(LABOF, record.content)?;
        run.stack.replace(1, Value::Label(record.label));
        Ok(())
    }

    /// The record in a place that a handle leads to.
    #[inline]
    fn record(&self, place: u8) -> Result<&Record, Fault> {
        self.store.get(place).ok_or_else(|| self.rules.no_record())
    }

    fn raise(&self, run: &mut Run) -> Result<(), Fault> {
        let by = run.stack.label(0)?;
        let raised = self.rules.join(run.label, by);
        self.rules.within_clearance(RAISE, run, raised)?;
        run.label = self.rules.raised(Raiser::Raise, run.label, by, raised);
        run.stack.drop(1);
        Ok(())
    }

    fn lower(&self, run: &mut Run) -> Result<(), Fault> {
        let new = run.stack.label(0)?;
        self.rules.may_lower(run, new)?;
        run.clearance = new;
        run.stack.drop(1);
        Ok(())
    }

    fn compare_labels(&self, run: &mut Run, opcode: u8) -> Result<(), Fault> {
        let (deeper, top) = (run.stack.label(1)?, run.stack.label(0)?);
        let answer = match opcode {
            FLOWS => Value::Number(self.rules.pushed_by_flows(self.rules.flow_test(deeper, top))),
            JOIN => Value::Label(self.rules.join(deeper, top)),
            _ => Value::Label(self.rules.meet(deeper, top)),
        };
        run.stack.replace(2, answer);
        Ok(())
    }

    fn make(&mut self, run: &mut Run, opcode: u8, kind: Kind) -> Result<(), Fault> {
        let label = run.stack.label(0)?;
        self.check_target(run, opcode, label)?;
        let place = run.places.take()?;
        let content = Content::Value(run.stack.operand(1));
        self.store.put(place, Record { kind, label, content });
        run.stack.replace(2, Value::handle(kind, place));
        Ok(())
    }

    /// OPEN or READ, of the record at `place`.
    #[inline]
    fn open(&mut self, run: &mut Run, opcode: u8, place: u8) -> Result<(), Fault> {
        let record = *self.record(place)?;
        let raised = self.rules.join(run.label, record.label);
        self.rules
            .within_clearance(opcode, run, raised)
            .map_err(|fault| self.rules.unopened(opcode, record.content, fault))?;
        let raiser = Raiser::of(opcode, record.content);
        run.label = self.rules.raised(raiser, run.label, record.label, raised);
        match record.content {
            Content::Value(value) => {
                run.stack.replace(1, value);
                Ok(())
            }
            Content::Fault(fault) => Err(fault),
        }
    }

    fn write(&mut self, run: &mut Run) -> Result<(), Fault> {
        let place = run.stack.reference()?;
        let record = self.record(place)?;
        self.check_target(run, WRITE, record.label)?;
        self.rules.passes_over(WRITE, record.content)?;
        let content = Content::Value(run.stack.operand(1));
        self.store.put(place, Record { content, ..*record });
        run.stack.drop(2);
        Ok(())
    }

    fn block(&mut self, run: &mut Run, operand: usize) -> Result<(), Fault> {
        let bound = run.stack.label(0)?;
        let (target, steps) = (self.short(operand), self.short(operand + 2));
        let places = self.byte(operand + 4);
        self.check_target(run, BLOCK, bound)?;
        if !self.rules.may_nest(run.depth) {
            return Err(Fault::TOO_DEEP);
        }
        if !self.rules.may_lend_steps(steps, run.steps_left) {
            return Err(Fault::NO_STEPS);
        }
        if !self.rules.may_lend_places(places, run.places.left()) {
            return Err(Fault::NO_PLACE);
        }
        let place = run.places.next as u8;
        let mut body = run.body(target.into(), steps, places);
        run.steps_left -= steps;
        run.places.next += places + 1;
        let content = self.run_body(run, &mut body, bound)?;
        let label = self.rules.outcome_label(bound, body.label);
        self.store.put(place, Record { kind: Kind::Sealed, label, content });
        run.stack.replace(1, Value::Sealed(place));
        Ok(())
    }

    /// Runs a body that was paid for and gives what the outcome holds.
    fn run_body(&mut self, outer: &mut Run, body: &mut Run, bound: Label) -> Result<Content, Fault> {
        let kept = self.rules.kept_store(&self.store);
        self.rules.entering(outer, body);
        let ending = self.run(body);
        self.rules.leaving(outer, body, ending);
        if let Some(fault) = self.rules.crossing(ending) {
            return Err(fault);
        }
        let to_bound = self.rules.flow_test(body.label, bound);
        if let (Some(kept), true) = (kept, to_bound != 0) {
            self.store = kept;
        }
        Ok(self.rules.outcome(ending, to_bound))
    }

    /// Checks 23 and 24 for an instruction that writes to, or makes, a record.
    #[inline]
    fn check_target(&self, run: &Run, opcode: u8, target: Label) -> Result<(), Fault> {
        self.rules.may_target(opcode, run, target)?;
        self.rules.within_clearance(opcode, run, target)
    }

    // Operands in the code; check 7 has seen that they are there.

    #[inline]
    fn byte(&self, at: usize) -> usize {
        self.code[at].into()
    }

    #[inline]
    fn short(&self, at: usize) -> u16 {
        u16::from_le_bytes(self.bytes(at))
    }

    #[inline]
    fn word(&self, at: usize) -> u32 {
        u32::from_le_bytes(self.bytes(at))
    }

    #[inline]
    fn bytes<const N: usize>(&self, at: usize) -> [u8; N] {
        *self.code[at..].first_chunk().expect("no instruction is cut")
    }
}

#[inline]
fn arithmetic(run: &mut Run, opcode: u8) -> Result<(), Fault> {
    let (deeper, top) = (run.stack.number(1)?, run.stack.number(0)?);
    let answer = match opcode {
        ADD => deeper.wrapping_add(top),
        SUB => deeper.wrapping_sub(top),
        LESS => (deeper < top).into(),
        _ => (deeper == top).into(),
    };
    run.stack.replace(2, Value::Number(answer));
    Ok(())
}
