//! The mutants of days as rules.

use crate::day_admission;
use crate::day_list::DayMutant;
use crate::handlers::Notes;
use crate::wrong::{OLD_RECORD, OLD_RECORDS};
use reference::day_rules::{Allowances, DayRules};
use reference::label::Label;
use reference::limits::{shown, view, LOCALS};
use reference::machine::Finished;
use reference::opcode::*;
use reference::parts::{short, Job};
use reference::rules::{Paper, Raiser, Rules};
use reference::run::{Frame, Run};
use reference::store::Store;
use reference::value::{Content, Ending, Fault, Record, Value};
use std::cell::Cell;

/// The paper's rules but for one.
pub struct WrongDay {
    mutant: DayMutant,
    /// The outermost run's locals, for the mutant that keeps them.
    locals: Cell<[Value; LOCALS]>,
    /// The clearance that the first job to run started with.
    first_clearance: Cell<Label>,
    /// The day's limit, for mutants of admission.
    limit: Cell<u32>,
    notes: Notes,
}

impl WrongDay {
    pub fn new(mutant: DayMutant) -> WrongDay {
        WrongDay {
            mutant,
            locals: Cell::new([Value::ZERO; LOCALS]),
            first_clearance: Cell::new(Label::PUBLIC),
            limit: Cell::new(0),
            notes: Notes::default(),
        }
    }

    fn is(&self, mutant: DayMutant) -> bool {
        self.mutant == mutant
    }

    /// Whether a handle in `record`, to a place from C on, becomes 33.
    fn turns(&self, record: &Record, value: Value, inputs: usize, last: Label) -> bool {
        match self.mutant {
            // Every such place is empty by now.
            DayMutant::HandlesLeft | DayMutant::StandingTurned => false,
            DayMutant::HiddenHandlesLeft => record.label.flows_to(last),
            DayMutant::SealedHandlesLeft => !matches!(value, Value::Sealed(_)),
            DayMutant::ReferenceHandlesLeft => !matches!(value, Value::Reference(_)),
            DayMutant::FirstHandleLeft => value.place().map(usize::from) != Some(inputs),
            _ => true,
        }
    }

    fn replace_handles(&self, store: &mut Store, inputs: usize, last: Label) {
        for record in store.records_mut() {
            let Content::Value(value) = record.content else { continue };
            let Some(place) = value.place() else { continue };
            let gone = usize::from(place) >= inputs && self.turns(record, value, inputs, last);
            if gone || self.is(DayMutant::HandlesAllTurned) {
                record.content = match self.mutant {
                    DayMutant::GoneIsZero => Content::Value(Value::ZERO),
                    DayMutant::GoneTellsPlace => {
                        Content::Fault(Fault { number: place.into(), ..Fault::VANISHED })
                    }
                    _ => Content::Fault(Fault::VANISHED),
                };
            }
        }
    }
}

const GONE: Content = Content::Fault(Fault::VANISHED);

impl Rules for WrongDay {
    fn raised(&self, raiser: Raiser, current: Label, _by: Label, raised: Label) -> Label {
        match raiser {
            Raiser::ReadFault if self.is(DayMutant::ReadFaultUnraised) => current,
            _ => raised,
        }
    }

    fn unopened(&self, opcode: u8, content: Content, fault: Fault) -> Fault {
        if self.is(DayMutant::UnreadFaultTells) && (opcode, content) == (READ, GONE) {
            return Fault::VANISHED;
        }
        Paper.unopened(opcode, content, fault)
    }

    fn passes_over(&self, opcode: u8, content: Content) -> Result<(), Fault> {
        let looks = match self.mutant {
            DayMutant::WriteLooks => opcode == WRITE,
            DayMutant::LabofLooks => opcode == LABOF,
            _ => false,
        };
        if looks && content == GONE {
            return Err(Fault::VANISHED);
        }
        Ok(())
    }

    /// Handles that stay may lead to an empty place.
    fn no_record(&self) -> Fault {
        Fault::VANISHED
    }

    fn outcome(&self, ending: Ending, to_bound: u32) -> Content {
        match Paper.outcome(ending, to_bound) {
            GONE if self.is(DayMutant::GoneUnsealed) => Content::Fault(Fault::SPENT),
            outcome => outcome,
        }
    }

    fn given_back(&self, run: &Run, frame: Frame, fault: Fault) -> Label {
        match self.mutant {
            DayMutant::ThrowClearance => run.clearance,
            DayMutant::GoneKeeps if fault == Fault::VANISHED => run.clearance,
            DayMutant::FirstJobClearance => self.first_clearance.get(),
            _ => frame.clearance,
        }
    }

    fn caught(&self, run: &mut Run, _fault: Fault) {
        if self.is(DayMutant::TryLabel) {
            run.label = self.notes.label(run);
        }
    }

    fn obeyed(&self, run: &mut Run, opcode: u8, fault: Option<Fault>) {
        if (opcode, fault) == (TRY, None) {
            self.notes.tried(run);
        }
        if run.depth == 0 {
            self.locals.set(run.locals);
        }
    }
}

impl DayRules for WrongDay {
    fn code_holds(
        &self,
        code: &[u8],
        start: usize,
        length: usize,
        well_formed: impl Fn(&[u8]) -> bool,
    ) -> bool {
        match self.mutant {
            // The span is looked at too, as what is not in order cannot be run.
            DayMutant::CodeChecked => well_formed(code) && well_formed(&code[start..start + length]),
            DayMutant::TargetsFromSection => well_formed(&rebased(&code[start..start + length], start)),
            _ => Paper.code_holds(code, start, length, well_formed),
        }
    }

    fn span<'a>(&self, code: &'a [u8], start: usize, length: usize) -> (&'a [u8], usize) {
        match self.mutant {
            DayMutant::TargetsFromSection => (code, start),
            _ => Paper.span(code, start, length),
        }
    }

    fn allowances(&self, limit: u32, jobs: &[Job]) -> Allowances {
        self.limit.set(limit);
        day_admission::allowances(self.mutant, limit, jobs)
    }

    fn account(&self, job: &Job, index: usize) -> usize {
        day_admission::account(self.mutant, job, index)
    }

    fn admits(&self, declared: u16, account: usize, left: &Allowances) -> bool {
        day_admission::admits(self.mutant, declared, account, left)
    }

    fn charge(&self, left: &mut Allowances, account: usize, job: &Job, ran: Option<&Finished>) {
        day_admission::charge(self.mutant, self.limit.get(), left, account, job, ran);
    }

    fn handed_on(&self, before: Store, finished: &Finished, inputs: usize) -> Store {
        let undone = match finished.ending {
            Ending::Fault(_) => self.is(DayMutant::FaultUndoes),
            _ => false,
        };
        if undone || self.is(DayMutant::StoreFresh) {
            return before;
        }
        let mut store = finished.store.clone();
        if !self.is(DayMutant::RecordsLeft) {
            store.empty_from(inputs);
        }
        self.replace_handles(&mut store, inputs, finished.label);
        store
    }

    fn skipped_numbers(&self, job: &Job, inputs: usize, reader: Label) -> [u16; 6] {
        let mut numbers = Paper.skipped_numbers(job, inputs, reader);
        match self.mutant {
            DayMutant::SkipByReader if !job.label.flows_to(reader) => numbers[0] = 0,
            DayMutant::SkipAsSpent => numbers[0] = 3,
            DayMutant::SkipTellsSteps => numbers[1] = job.steps,
            DayMutant::SkipTellsPlace => numbers[2] = inputs as u16,
            DayMutant::SkipCountsInputs => numbers[3] = inputs as u16,
            DayMutant::SkipWithoutRecordsAt => numbers[4] = 0,
            DayMutant::SkipWithoutLength => numbers[5] = 0,
            DayMutant::SkipOldRecordsAt => numbers[4] = OLD_RECORDS as u16,
            DayMutant::SkipOldLength => numbers[5] = OLD_RECORDS as u16,
            DayMutant::SkipOldView => numbers[4..].fill(OLD_RECORDS as u16),
            _ => (),
        }
        numbers
    }

    fn skipped_length(&self) -> usize {
        match self.mutant {
            DayMutant::SkipOldView => OLD_RECORDS,
            _ => Paper.skipped_length(),
        }
    }

    fn needed(&self, lengths: &[usize]) -> usize {
        let sum = Paper.needed(lengths);
        match self.mutant {
            DayMutant::LastViewChecked => lengths.last().copied().unwrap_or(0),
            DayMutant::FirstViewChecked => lengths[0],
            DayMutant::LongestViewChecked => lengths.iter().copied().max().unwrap_or(0),
            DayMutant::SumWraps => sum % 65_536,
            DayMutant::OldWidthsChecked => lengths.iter().copied().map(old_length).sum(),
            DayMutant::RoomForOneMore => sum + 1,
            _ => sum,
        }
    }

    fn starting(&self, run: &mut Run, last: Option<&Finished>) {
        let Some(last) = last else { return self.first_clearance.set(run.clearance) };
        match self.mutant {
            DayMutant::PlacesKept => run.places.next = usize::from(last.next_place).min(run.places.end),
            DayMutant::LabelKept => run.label = last.label,
            DayMutant::ClearanceKept => run.clearance = last.clearance,
            DayMutant::LocalsKept => run.locals = self.locals.get(),
            _ => (),
        }
    }

    fn ended(&self, finished: &mut Finished, job: &Job, allowance: u32, inputs: usize) {
        match self.mutant {
            DayMutant::TurnedTooSoon => finished.store.replace_handles_from(inputs),
            DayMutant::EmptiedTooSoon => finished.store.empty_from(inputs),
            DayMutant::StepsOfCaller => {
                finished.steps_used = (allowance - u32::from(job.steps - finished.steps_used)) as u16;
            }
            _ => (),
        }
    }

    fn before_check(&self, views: &[u8], buffer: &mut [u8]) {
        let written = match self.mutant {
            DayMutant::ByteBeforeCheck => 1,
            DayMutant::ViewsBeforeCheck => whole_views(views, buffer.len()),
            _ => 0,
        };
        let written = written.min(buffer.len());
        buffer[..written].copy_from_slice(&views[..written]);
    }
}

/// The code with targets from its own start, where they count from `start` bytes
/// before it. Those that would be negative become ones that no code has.
fn rebased(code: &[u8], start: usize) -> Vec<u8> {
    let mut code = code.to_vec();
    let mut at = 0;
    while let Some(shape) = code.get(at).and_then(|&opcode| SHAPES.get(opcode as usize)) {
        if matches!(code[at], JUMP | IFZ | BLOCK | TRY) && at + 2 < code.len() {
            let target = usize::from(short(&code, at + 1));
            let target = target.checked_sub(start).unwrap_or(usize::from(u16::MAX)) as u16;
            code[at + 1..at + 3].copy_from_slice(&target.to_le_bytes());
        }
        at += shape.length;
    }
    code
}

/// What a view of this length would take by the widths from before there were eight principals.
fn old_length(length: usize) -> usize {
    OLD_RECORDS + OLD_RECORD * ((length - view::RECORDS) / shown::LENGTH)
}

/// How many bytes the first views have that fit.
fn whole_views(views: &[u8], room: usize) -> usize {
    let mut at = 0;
    while at < views.len() {
        let end = at + usize::from(short(views, at + view::LENGTH));
        if end > room {
            break;
        }
        at = end;
    }
    at
}
