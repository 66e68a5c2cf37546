//! The state of one run: the outermost one, or the body of a block.

use crate::label::Label;
use crate::limits::{FRAMES, LOCALS, STACK};
use crate::opcode::Shape;
use crate::parts::Job;
use crate::value::{Fault, Value};

#[derive(Clone, Debug)]
pub struct Run {
    pub at: usize,
    pub stack: Stack,
    pub locals: [Value; LOCALS],
    pub frames: Frames,
    pub label: Label,
    pub clearance: Label,
    pub steps_left: u16,
    pub places: Places,
    /// How many blocks this run is inside of.
    pub depth: usize,
}

impl Run {
    /// The run of a job that finds so many input records.
    pub fn outermost(job: &Job, inputs: usize) -> Run {
        Run {
            at: job.start,
            stack: Stack::EMPTY,
            locals: [Value::ZERO; LOCALS],
            frames: Frames::EMPTY,
            label: job.label,
            clearance: job.clearance,
            steps_left: job.steps,
            places: Places { next: inputs, end: job.places as usize },
            depth: 0,
        }
    }

    /// The run of a block's body: `steps` of its own, and the `places` behind
    /// the one that this run's next record, the outcome, will take.
    #[inline]
    pub fn body(&self, target: usize, steps: u16, places: usize) -> Run {
        let first = self.places.next + 1;
        Run {
            at: target,
            stack: Stack::EMPTY,
            locals: self.locals,
            frames: Frames::EMPTY,
            label: self.label,
            clearance: self.clearance,
            steps_left: steps,
            places: Places { next: first, end: first + places },
            depth: self.depth + 1,
        }
    }

    /// Removes the newest frame and goes to its handler with `fault`; without a
    /// frame, the fault is not caught. Which clearance stands then is a rule.
    pub fn catch(&mut self, fault: Fault) -> Option<Frame> {
        let frame = self.frames.pop()?;
        self.stack.cut(frame.height as usize);
        self.stack.push(Value::Number(fault.code.into()));
        self.stack.push(Value::Number(fault.number));
        self.at = frame.handler as usize;
        Some(frame)
    }
}

/// The places that a run may still take.
#[derive(Clone, Copy, Debug)]
pub struct Places {
    pub next: usize,
    pub end: usize,
}

impl Places {
    #[inline]
    pub fn left(&self) -> usize {
        self.end - self.next
    }

    #[inline]
    pub fn take(&mut self) -> Result<u8, Fault> {
        if self.left() == 0 {
            return Err(Fault::NO_PLACE);
        }
        let place = self.next as u8;
        self.next += 1;
        Ok(place)
    }
}

#[derive(Clone, Debug)]
pub struct Stack {
    values: [Value; STACK],
    height: usize,
}

impl Stack {
    const EMPTY: Stack = Stack { values: [Value::ZERO; STACK], height: 0 };

    /// Checks 20 and 21, which come before all others.
    #[inline]
    pub fn admits(&self, shape: &Shape) -> Result<(), Fault> {
        if self.height < shape.pops {
            return Err(Fault::TOO_FEW_OPERANDS);
        }
        if self.height - shape.pops + shape.pushes > STACK {
            return Err(Fault::STACK_FULL);
        }
        Ok(())
    }

    #[inline]
    pub fn height(&self) -> usize {
        self.height
    }

    #[inline]
    pub fn push(&mut self, value: Value) {
        self.values[self.height] = value;
        self.height += 1;
    }

    #[inline]
    pub fn pop(&mut self) -> Value {
        self.drop(1);
        self.values[self.height]
    }

    #[inline]
    pub fn drop(&mut self, count: usize) {
        self.height -= count;
    }

    /// Pops the operands and pushes the instruction's answer.
    #[inline]
    pub fn replace(&mut self, operands: usize, answer: Value) {
        self.drop(operands);
        self.push(answer);
    }

    /// Cuts the stack to `height`, or leaves it if it is lower.
    pub fn cut(&mut self, height: usize) {
        self.height = self.height.min(height);
    }

    /// The operand `below` the top, which stays: a fault may still follow.
    #[inline]
    pub fn operand(&self, below: usize) -> Value {
        self.values[self.height - 1 - below]
    }

    #[inline]
    pub fn number(&self, below: usize) -> Result<u32, Fault> {
        match self.operand(below) {
            Value::Number(number) => Ok(number),
            _ => Err(Fault::WRONG_KIND),
        }
    }

    #[inline]
    pub fn label(&self, below: usize) -> Result<Label, Fault> {
        match self.operand(below) {
            Value::Label(label) => Ok(label),
            _ => Err(Fault::WRONG_KIND),
        }
    }

    /// The place of the sealed record whose handle is on top.
    #[inline]
    pub fn sealed(&self) -> Result<u8, Fault> {
        match self.operand(0) {
            Value::Sealed(place) => Ok(place),
            _ => Err(Fault::WRONG_KIND),
        }
    }

    /// The place of the reference whose handle is on top.
    #[inline]
    pub fn reference(&self) -> Result<u8, Fault> {
        match self.operand(0) {
            Value::Reference(place) => Ok(place),
            _ => Err(Fault::WRONG_KIND),
        }
    }

    /// The place of the record of either kind whose handle is on top.
    #[inline]
    pub fn handle(&self) -> Result<u8, Fault> {
        self.operand(0).place().ok_or(Fault::WRONG_KIND)
    }
}

/// What TRY notes for its handler.
#[derive(Clone, Copy, Debug)]
pub struct Frame {
    pub handler: u16,
    pub height: u8,
    pub clearance: Label,
}

/// The frames of one run.
#[derive(Clone, Debug)]
pub struct Frames {
    // Most runs have none, and bodies should not be slow to start.
    frames: Vec<Frame>,
}

impl Frames {
    const EMPTY: Frames = Frames { frames: Vec::new() };

    /// The frames that there are, the newest last.
    pub fn open(&self) -> &[Frame] {
        &self.frames
    }

    #[inline]
    pub fn push(&mut self, frame: Frame) -> Result<(), Fault> {
        if self.frames.len() == FRAMES {
            return Err(Fault::FRAMES);
        }
        self.frames.push(frame);
        Ok(())
    }

    #[inline]
    pub fn pop(&mut self) -> Option<Frame> {
        self.frames.pop()
    }
}
