//! What a set of files reaches: instructions, the faults they throw, the faults
//! that OPEN throws out of outcomes, what happens inside blocks, refusals.

use crate::clearances::{self, Back, Watch};
use crate::halves::{self, Half};
use crate::words::{self, Word};
use reference::file::File;
use reference::label::Label;
use reference::limits::{header, view, MAX_VIEW, NESTED_BLOCKS};
use reference::opcode::*;
use reference::read_by;
use reference::rules::{Paper, Raiser, Rules};
use reference::run::{Frame, Run};
use reference::value::{Ending, Fault, Value};
use std::cell::{Cell, RefCell};
use std::collections::BTreeMap;
use std::fmt;

/// Something that a file can reach. A depth is how many blocks a run is inside
/// of, 0 for the outermost.
#[derive(Clone, Copy, Debug, PartialEq, Eq, PartialOrd, Ord)]
pub enum Point {
    Obeyed(Opcode),
    Threw(Opcode, FaultCode),
    Half(Half),
    Back(Back),
    /// OPEN threw a fault that a body had ended with.
    Unsealed(FaultCode),
    /// OPEN or READ gave a handle.
    Handed(Opcode),
    /// A body's result was a handle.
    HandedOut,
    Entered(Depth),
    Caught(Depth),
    Spent(Depth),
    Lowered(Depth),
    Refused(u8),
    Word(Word),
}

type Opcode = u8;
type FaultCode = u8;
type Depth = usize;

/// The faults that an instruction can throw of itself.
pub fn own_faults(opcode: u8) -> &'static [u8] {
    match opcode {
        JUMP => &[],
        END | SET | POP => &[20],
        PUSH | LAB | GET | CUR | CLR | INPUT => &[21],
        TRY => &[21, 29],
        DONE => &[29],
        RAISE | OPEN | READ => &[20, 22, 24],
        LOWER => &[20, 22, 25],
        SEAL | NEW => &[20, 22, 23, 24, 26],
        WRITE => &[20, 22, 23, 24],
        BLOCK => &[20, 22, 23, 24, 28, 27, 26],
        THROW => &[20, 22, 30],
        _ => &[20, 22],
    }
}

/// Every point there is.
pub fn all_points() -> Vec<Point> {
    let mut points = vec![Point::Handed(OPEN), Point::Handed(READ), Point::HandedOut];
    for opcode in 0..OPCODES as u8 {
        // THROW never gets done.
        if opcode != THROW {
            points.push(Point::Obeyed(opcode));
        }
        for &fault in own_faults(opcode) {
            points.push(Point::Threw(opcode, fault));
            points.extend(halves::told_by(opcode, fault).map(Point::Half));
        }
    }
    points.extend(halves::of_any().map(Point::Half));
    points.extend(clearances::of_files().into_iter().map(Point::Back));
    points.extend((20..=32).map(Point::Unsealed));
    points.extend((1..=NESTED_BLOCKS).map(Point::Entered));
    for of_depth in [Point::Caught, Point::Spent] {
        points.extend((0..=NESTED_BLOCKS).map(of_depth));
    }
    points.extend((0..=1).map(Point::Lowered));
    points.extend((1..=9).map(Point::Refused));
    points.extend(words::all_points().into_iter().map(Point::Word));
    points
}

/// The ending, in a view, of a run that was spent.
const SPENT: u8 = 3;

/// How often each point was reached.
#[derive(Default)]
pub struct Coverage {
    counts: RefCell<BTreeMap<Point, u64>>,
    /// Set between the raise of an OPEN and the sealed fault it throws.
    unsealing: Cell<bool>,
    watch: Watch,
}

impl Coverage {
    /// Reads `file` for each of its labels and one more, and once with a buffer
    /// that is too short.
    pub fn add(&self, file: &[u8]) {
        let labels = file.get(header::LABEL_COUNT).copied().unwrap_or(0).min(32);
        let mut buffer = [0; MAX_VIEW];
        for reader in 0..=labels.into() {
            self.read(file, reader, &mut buffer);
        }
        self.read(file, 0, &mut buffer[..view::RECORDS - 1]);
        if let Ok(parsed) = File::parse(file) {
            self.reach_words(words::of_labels(parsed.parts.labels(), &file[header::LENGTH..]));
        }
    }

    fn read(&self, file: &[u8], reader: usize, buffer: &mut [u8]) {
        match read_by(self, file, reader, buffer) {
            Err(refusal) => self.reach(Point::Refused(refusal.number())),
            Ok(_) if buffer[view::ENDING] == SPENT => self.reach(Point::Spent(0)),
            Ok(_) => (),
        }
    }

    fn reach(&self, point: Point) {
        *self.counts.borrow_mut().entry(point).or_default() += 1;
    }

    fn reach_back(&self, points: impl IntoIterator<Item = Back>) {
        points.into_iter().for_each(|back| self.reach(Point::Back(back)));
    }

    fn reach_words(&self, points: impl IntoIterator<Item = Word>) {
        points.into_iter().for_each(|word| self.reach(Point::Word(word)));
    }

    pub fn count(&self, point: Point) -> u64 {
        self.counts.borrow().get(&point).copied().unwrap_or(0)
    }

    pub fn missing(&self) -> Vec<Point> {
        all_points().into_iter().filter(|&point| self.count(point) == 0).collect()
    }
}

impl Rules for Coverage {
    fn flow_test(&self, from: Label, to: Label) -> u32 {
        self.reach_words(words::of_test(from, to));
        Paper.flow_test(from, to)
    }

    fn raised(&self, raiser: Raiser, _current: Label, _by: Label, raised: Label) -> Label {
        self.unsealing.set(raiser == Raiser::OpenFault);
        raised
    }

    fn within_clearance(&self, opcode: u8, run: &Run, label: Label) -> Result<(), Fault> {
        let answer = Paper.within_clearance(opcode, run, label);
        answer.inspect(|()| self.reach_back(self.watch.allowed(opcode, run, label)))
    }

    fn may_lower(&self, run: &Run, new: Label) -> Result<(), Fault> {
        let answer = Paper.may_lower(run, new);
        answer.inspect(|()| self.reach_back(self.watch.allowed(LOWER, run, new)))
    }

    fn given_back(&self, run: &Run, frame: Frame, fault: Fault) -> Label {
        self.reach_back(self.watch.caught(run, frame, fault));
        Paper.given_back(run, frame, fault)
    }

    fn starts(&self, run: &Run) {
        self.watch.starts(run);
    }

    fn entering(&self, _outer: &mut Run, body: &mut Run) {
        self.watch.enters(body);
        self.reach(Point::Entered(body.depth));
    }

    fn leaving(&self, outer: &mut Run, body: &Run, ending: Ending) {
        match ending {
            Ending::Spent => self.reach(Point::Spent(body.depth)),
            Ending::Result(Value::Sealed(_) | Value::Reference(_)) => self.reach(Point::HandedOut),
            Ending::Fault(_) => self.reach_back(self.watch.uncaught_below(outer)),
            _ => (),
        }
    }

    fn uncaught(&self, run: &mut Run) {
        self.reach_back(self.watch.uncaught(run));
    }

    fn dropped(&self, run: &mut Run, frame: Frame) {
        self.reach_back(self.watch.dropped(run, frame));
    }

    fn caught(&self, run: &mut Run, _fault: Fault) {
        self.reach(Point::Caught(run.depth));
    }

    fn obeyed(&self, run: &mut Run, opcode: u8, fault: Option<Fault>) {
        let unsealing = self.unsealing.take();
        match fault {
            None => self.reach(Point::Obeyed(opcode)),
            Some(fault) if unsealing => return self.reach(Point::Unsealed(fault.code)),
            Some(fault) => {
                self.reach(Point::Threw(opcode, fault.code));
                halves::reached(run, opcode, fault)
                    .into_iter()
                    .for_each(|half| self.reach(Point::Half(half)));
                return;
            }
        }
        if opcode == LOWER {
            self.reach(Point::Lowered(run.depth));
        }
        let handle = |value| matches!(value, Value::Sealed(_) | Value::Reference(_));
        if matches!(opcode, OPEN | READ) && handle(run.stack.operand(0)) {
            self.reach(Point::Handed(opcode));
        }
    }
}

impl fmt::Display for Coverage {
    fn fmt(&self, f: &mut fmt::Formatter) -> fmt::Result {
        for (opcode, shape) in (0u8..).zip(&SHAPES) {
            write!(f, "{:<6} done {}", shape.name, self.count(Point::Obeyed(opcode)))?;
            for &fault in own_faults(opcode) {
                write!(f, ", {fault}: {}", self.count(Point::Threw(opcode, fault)))?;
                let told: Vec<u64> =
                    halves::told_by(opcode, fault).map(|half| self.count(Point::Half(half))).collect();
                if let [secrecy, integrity, both] = told[..] {
                    write!(f, " (1: {secrecy}, 2: {integrity}, 3: {both})")?;
                }
            }
            writeln!(f)?;
        }
        for half in halves::of_any() {
            writeln!(f, "{half:?}: {}", self.count(Point::Half(half)))?;
        }
        for back in clearances::of_files() {
            writeln!(f, "{back:?}: {}", self.count(Point::Back(back)))?;
        }
        for word in words::all_points() {
            writeln!(f, "{word:?}: {}", self.count(Point::Word(word)))?;
        }
        let mut row = |name: &str, points: &mut dyn Iterator<Item = (usize, Point)>| {
            let counts: Vec<String> =
                points.map(|(number, point)| format!("{number}: {}", self.count(point))).collect();
            writeln!(f, "{name}: {}", counts.join(", "))
        };
        row("thrown by OPEN out of outcomes", &mut (20..=32).map(|n| (n, Point::Unsealed(n as u8))))?;
        row("bodies at depth", &mut (1..=NESTED_BLOCKS).map(|n| (n, Point::Entered(n))))?;
        row("faults caught at depth", &mut (0..=NESTED_BLOCKS).map(|n| (n, Point::Caught(n))))?;
        row("spent at depth", &mut (0..=NESTED_BLOCKS).map(|n| (n, Point::Spent(n))))?;
        row("clearance lowered at depth", &mut (0..=1).map(|n| (n, Point::Lowered(n))))?;
        row("refusals", &mut (1..=9).map(|n| (n, Point::Refused(n as u8))))?;
        let handed =
            [Point::Handed(OPEN), Point::Handed(READ), Point::HandedOut].map(|point| self.count(point));
        writeln!(f, "handles opened: {}, read: {}, out of bodies: {}", handed[0], handed[1], handed[2])?;
        let (all, missing) = (all_points().len(), self.missing());
        writeln!(f, "{} of {all} points reached, missing {missing:?}", all - missing.len())
    }
}
