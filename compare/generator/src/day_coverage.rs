//! What a set of days reaches: refusals, which jobs are admitted, what becomes of
//! handles whose records are gone, and what failed flow tests tell.

use crate::admission::{self, Admission, Declared};
use crate::clearances::{self, Back, Watch};
use crate::halves::{self, Half};
use crate::words::{self, Word};
use reference::day::Day;
use reference::day_rules::{Allowances, DayRules};
use reference::label::Label;
use reference::limits::{day_header, job, MAX_DAY};
use reference::machine::Finished;
use reference::opcode::*;
use reference::parts::Job;
use reference::read_day_by;
use reference::rules::{Paper, Raiser, Rules};
use reference::run::{Frame, Run};
use reference::store::Store;
use reference::value::{Content, Ending, Fault, Record, Value};
use std::cell::{Cell, RefCell};
use std::collections::BTreeMap;
use std::fmt;

/// Something that a day can reach.
#[derive(Clone, Copy, Debug, PartialEq, Eq, PartialOrd, Ord)]
pub enum Point {
    Refused(u8),
    /// A job was skipped, or ended with this number in its view.
    Skipped,
    Ended(u8),
    Admission(Admission),
    /// Jobs whose spans share bytes, and jobs of two callers.
    Overlap,
    TwoCallers,
    /// A handle was turned into 33, in a record that the reader is shown or not.
    TurnedSealed,
    TurnedReference,
    TurnedHidden,
    /// A handle to an input record was kept.
    Kept,
    /// 33 was thrown by OPEN or READ, or sealed by a block.
    ThrownBy(Opcode),
    Sealed,
    /// READ found 33 above the clearance.
    Uncleared,
    /// WRITE or LABOF was given a reference that holds 33.
    PassedOver(Opcode),
    /// READ gave what another job wrote, a handle too.
    Read,
    ReadHandle,
    Half(Half),
    Back(Back),
    Word(Word),
}

type Opcode = u8;

/// Every point there is.
pub fn all_points() -> Vec<Point> {
    use Point::*;
    let mut points = vec![Skipped, Overlap, TwoCallers];
    points.extend(admission::all_points().map(Point::Admission));
    points.extend([TurnedSealed, TurnedReference, TurnedHidden, Kept]);
    points.extend([ThrownBy(OPEN), ThrownBy(READ), Sealed, Uncleared, PassedOver(WRITE), PassedOver(LABOF)]);
    points.extend([Read, ReadHandle]);
    points.extend((1..=4).chain(6..=10).map(Refused));
    points.extend((1..=3).map(Ended));
    points.extend(halves::of_any().map(Point::Half));
    points.extend(clearances::of_days().into_iter().map(Point::Back));
    points.extend(words::all_points().into_iter().map(Point::Word));
    points
}

/// How often each point was reached.
#[derive(Default)]
pub struct DayCoverage {
    counts: RefCell<BTreeMap<Point, u64>>,
    reader: Cell<Option<Label>>,
    /// Whether a job of the day has ended.
    later: Cell<bool>,
    /// Set between the raise of an OPEN or READ and the fault that it found.
    finding: Cell<bool>,
    watch: Watch,
}

impl DayCoverage {
    /// Reads `file` for each of its labels and one more, and once with a buffer
    /// that is one byte too short.
    pub fn add(&self, file: &[u8]) {
        let mut buffer = vec![0; MAX_DAY];
        let day = Day::parse_parts(file);
        let labels = day.as_ref().map_or(&[][..], |day| day.parts.labels());
        for reader in 0..=labels.len() {
            self.reader.set(labels.get(reader).copied());
            if let Some(length) = self.read(file, reader, &mut buffer) {
                self.read(file, reader, &mut buffer[..length - 1]);
            }
        }
        if let Ok(day) = Day::parse(file) {
            self.add_jobs(file);
            self.add_admission(&day);
            self.reach_words(words::of_labels(day.parts.labels(), &file[day_header::LENGTH..]));
        }
    }

    fn add_admission(&self, day: &Day) {
        let declared = day.jobs(&Paper).map(|job| Declared { caller: job.caller, steps: job.steps });
        let reached = admission::reached(day.steps, &declared.collect::<Vec<_>>());
        reached.into_iter().for_each(|point| self.reach(Point::Admission(point)));
    }

    /// What the jobs' entries alone tell.
    fn add_jobs(&self, file: &[u8]) {
        let at = |at: usize| usize::from(u16::from_le_bytes([file[at], file[at + 1]]));
        let (jobs_at, code_at) = (at(day_header::JOBS_AT), at(day_header::CODE_AT));
        let spans: Vec<(usize, usize, u8)> = (jobs_at..code_at)
            .step_by(job::LENGTH)
            .map(|entry| (at(entry + job::CODE_AT), at(entry + job::CODE_LENGTH), file[entry + job::CALLER]))
            .collect();
        for (second, &(start, length, caller)) in spans.iter().enumerate() {
            for &(earlier, earlier_length, other) in &spans[..second] {
                if start < earlier + earlier_length && earlier < start + length {
                    self.reach(Point::Overlap);
                }
                if caller != other {
                    self.reach(Point::TwoCallers);
                }
            }
        }
    }

    fn read(&self, file: &[u8], reader: usize, buffer: &mut [u8]) -> Option<usize> {
        self.later.set(false);
        let answer = read_day_by(self, file, reader, buffer);
        answer.inspect_err(|refusal| self.reach(Point::Refused(refusal.number()))).ok()
    }

    fn reach(&self, point: Point) {
        *self.counts.borrow_mut().entry(point).or_default() += 1;
    }

    fn reach_back(&self, points: impl IntoIterator<Item = Back>) {
        points.into_iter().for_each(|back| self.reach(Point::Back(back)));
    }

    fn reach_words(&self, points: impl IntoIterator<Item = Word>) {
        points.into_iter().for_each(|word| self.reach(Point::Word(word)));
    }

    pub fn count(&self, point: Point) -> u64 {
        self.counts.borrow().get(&point).copied().unwrap_or(0)
    }

    pub fn missing(&self) -> Vec<Point> {
        all_points().into_iter().filter(|&point| self.count(point) == 0).collect()
    }

    /// Notes what becomes of a content that is kept in an input record.
    fn handed(&self, record: &Record, inputs: usize) {
        let Content::Value(value @ (Value::Sealed(place) | Value::Reference(place))) = record.content else {
            return;
        };
        if usize::from(place) < inputs {
            return self.reach(Point::Kept);
        }
        self.reach(match value {
            Value::Sealed(_) => Point::TurnedSealed,
            _ => Point::TurnedReference,
        });
        if self.reader.get().is_some_and(|reader| !record.label.flows_to(reader)) {
            self.reach(Point::TurnedHidden);
        }
    }
}

const GONE: Content = Content::Fault(Fault::VANISHED);

impl Rules for DayCoverage {
    fn flow_test(&self, from: Label, to: Label) -> u32 {
        self.reach_words(words::of_test(from, to));
        Paper.flow_test(from, to)
    }

    fn raised(&self, raiser: Raiser, _current: Label, _by: Label, raised: Label) -> Label {
        if raiser == Raiser::Read && self.later.get() {
            self.reach(Point::Read);
        }
        self.finding.set(matches!(raiser, Raiser::OpenFault | Raiser::ReadFault));
        raised
    }

    fn within_clearance(&self, opcode: u8, run: &Run, label: Label) -> Result<(), Fault> {
        let answer = Paper.within_clearance(opcode, run, label);
        answer.inspect(|()| self.reach_back(self.watch.allowed(opcode, run, label)))
    }

    fn given_back(&self, run: &Run, frame: Frame, fault: Fault) -> Label {
        self.reach_back(self.watch.caught(run, frame, fault));
        Paper.given_back(run, frame, fault)
    }

    fn starts(&self, run: &Run) {
        self.watch.starts(run);
    }

    fn entering(&self, _outer: &mut Run, body: &mut Run) {
        self.watch.enters(body);
    }

    fn leaving(&self, outer: &mut Run, _body: &Run, ending: Ending) {
        if let Ending::Fault(_) = ending {
            self.reach_back(self.watch.uncaught_below(outer));
        }
    }

    fn uncaught(&self, run: &mut Run) {
        self.reach_back(self.watch.uncaught(run));
    }

    fn dropped(&self, run: &mut Run, frame: Frame) {
        self.reach_back(self.watch.dropped(run, frame));
    }

    fn unopened(&self, opcode: u8, content: Content, fault: Fault) -> Fault {
        if (opcode, content) == (READ, GONE) {
            self.reach(Point::Uncleared);
        }
        Paper.unopened(opcode, content, fault)
    }

    fn passes_over(&self, opcode: u8, content: Content) -> Result<(), Fault> {
        if content == GONE {
            self.reach(Point::PassedOver(opcode));
        }
        Ok(())
    }

    fn outcome(&self, ending: Ending, to_bound: u32) -> Content {
        let outcome = Paper.outcome(ending, to_bound);
        if outcome == GONE {
            self.reach(Point::Sealed);
        }
        outcome
    }

    fn obeyed(&self, run: &mut Run, opcode: u8, fault: Option<Fault>) {
        if fault == Some(Fault::VANISHED) {
            self.reach(Point::ThrownBy(opcode));
        }
        if let (Some(fault), false) = (fault, self.finding.take()) {
            halves::reached(run, opcode, fault).into_iter().for_each(|half| self.reach(Point::Half(half)));
        }
        if opcode == READ && fault.is_none() && self.later.get() && run.stack.operand(0).place().is_some() {
            self.reach(Point::ReadHandle);
        }
    }
}

impl DayRules for DayCoverage {
    fn charge(&self, left: &mut Allowances, account: usize, job: &Job, ran: Option<&Finished>) {
        self.reach(match ran.map(|finished| finished.ending) {
            None => Point::Skipped,
            Some(Ending::Result(_)) => Point::Ended(1),
            Some(Ending::Fault(_)) => Point::Ended(2),
            Some(Ending::Spent) => Point::Ended(3),
        });
        Paper.charge(left, account, job, ran);
    }

    fn handed_on(&self, before: Store, finished: &Finished, inputs: usize) -> Store {
        self.later.set(true);
        finished.store.iter().take(inputs).for_each(|(_, record)| self.handed(record, inputs));
        Paper.handed_on(before, finished, inputs)
    }
}

impl fmt::Display for DayCoverage {
    fn fmt(&self, f: &mut fmt::Formatter) -> fmt::Result {
        for point in all_points() {
            writeln!(f, "{:<20} {}", format!("{point:?}"), self.count(point))?;
        }
        let (all, missing) = (all_points().len(), self.missing());
        writeln!(f, "{} of {all} points of days reached, missing {missing:?}", all - missing.len())
    }
}
