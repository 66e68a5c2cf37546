//! The mutants as rules.

use crate::handlers::Notes;
use crate::list::Mutant;
use crate::words;
use reference::day_rules::DayRules;
use reference::label::{Label, INTEGRITY, SECRECY};
use reference::limits::{view, LOCALS, NESTED_BLOCKS, WORDS};
use reference::opcode::*;
use reference::rules::{unless_flows, Field, Paper, Raiser, Rules, TableOf};
use reference::run::{Frame, Run};
use reference::store::Store;
use reference::table::Table;
use reference::value::{Content, Ending, Fault, Value};

/// The paper's rules but for one.
pub struct Wrong {
    mutant: Mutant,
    /// For the mutants that go back to what stood before.
    notes: Notes,
}

impl Wrong {
    pub fn new(mutant: Mutant) -> Wrong {
        Wrong { mutant, notes: Notes::default() }
    }

    fn is(&self, mutant: Mutant) -> bool {
        self.mutant == mutant
    }

    /// The opcode whose check 23 is left out, if one is.
    fn untargeted(&self) -> Option<u8> {
        match self.mutant {
            Mutant::SealUnchecked => Some(SEAL),
            Mutant::NewUnchecked => Some(NEW),
            Mutant::WriteUnchecked => Some(WRITE),
            Mutant::BlockUnchecked => Some(BLOCK),
            _ => None,
        }
    }

    /// The opcode whose check 24 is left out, if one is.
    fn uncleared(&self) -> Option<u8> {
        match self.mutant {
            Mutant::SealUncleared => Some(SEAL),
            Mutant::NewUncleared => Some(NEW),
            Mutant::WriteUncleared => Some(WRITE),
            Mutant::BlockUncleared => Some(BLOCK),
            Mutant::RaiseUncleared => Some(RAISE),
            Mutant::OpenUncleared => Some(OPEN),
            Mutant::ReadUncleared => Some(READ),
            _ => None,
        }
    }

    /// What 24 bears; by the paper `answer`, that of the test from `label` to the clearance.
    fn told_of_clearance(&self, opcode: u8, run: &Run, label: Label, answer: u32) -> u32 {
        let raises = matches!(opcode, RAISE | OPEN | READ);
        match (self.mutant, opcode) {
            (Mutant::ClearanceSilent, _) if !raises => 0,
            (Mutant::RaisedSilent, _) if raises => 0,
            (Mutant::ClearanceBackwards, _) => Paper.flow_test(run.clearance, label),
            // A raised label gives the answer that what it is raised by would give.
            (Mutant::RaiseTellsRise, RAISE)
            | (Mutant::OpenTellsRise, OPEN)
            | (Mutant::ReadTellsRise, READ) => Paper.flow_test(label, run.label),
            _ => answer,
        }
    }
}

const BOTH: u32 = SECRECY + INTEGRITY;

/// Where the records of a view started, and what one took, before there were eight principals.
pub const OLD_RECORDS: usize = 62;
pub const OLD_RECORD: usize = 36;

/// Whether the fault is that of a failed flow test, and bears its answer.
fn tells_half(fault: Fault) -> bool {
    matches!(fault.code, 23..=25)
}

impl DayRules for Wrong {}

impl Rules for Wrong {
    fn clause(&self, mask: u8) -> Table {
        words::clause(self.mutant, mask)
    }

    fn flow_test(&self, from: Label, to: Label) -> u32 {
        match (self.mutant, Paper.flow_test(from, to)) {
            (Mutant::IntegrityBackwards, _) => {
                let with = |label: Label, integrity: Table| Label { integrity, ..label };
                Paper.flow_test(with(from, to.integrity), with(to, from.integrity))
            }
            (Mutant::HalvesSwapped, SECRECY) => INTEGRITY,
            (Mutant::HalvesSwapped, INTEGRITY) => SECRECY,
            (Mutant::BothAsSecrecy, BOTH) => SECRECY,
            (Mutant::BothAsIntegrity, BOTH) => INTEGRITY,
            (mutant, answer) => words::flow_test(mutant, from, to, answer),
        }
    }

    fn pushed_by_flows(&self, answer: u32) -> u32 {
        if self.is(Mutant::FlowsTells) {
            answer
        } else {
            Paper.pushed_by_flows(answer)
        }
    }

    fn join(&self, one: Label, other: Label) -> Label {
        let mut joined = Paper.join(one, other);
        if self.is(Mutant::JoinAndsIntegrity) {
            joined.integrity = one.integrity & other.integrity;
        }
        if self.is(Mutant::JoinOrsSecrecy) {
            joined.secrecy = one.secrecy | other.secrecy;
        }
        if self.is(Mutant::LowestJoined) {
            joined = words::in_lowest_word(joined, one);
        }
        joined
    }

    fn meet(&self, one: Label, other: Label) -> Label {
        match self.mutant {
            Mutant::MeetIsJoin => Paper.join(one, other),
            Mutant::LowestMet => words::in_lowest_word(Paper.meet(one, other), one),
            _ => Paper.meet(one, other),
        }
    }

    fn may_target(&self, opcode: u8, run: &Run, target: Label) -> Result<(), Fault> {
        if self.untargeted() == Some(opcode) {
            return Ok(());
        }
        unless_flows(self.flow_test(run.label, target), |answer| {
            Fault::above_target(match self.mutant {
                Mutant::TargetSilent => 0,
                Mutant::TargetBackwards => Paper.flow_test(target, run.label),
                Mutant::TargetTellsBoth => answer | Paper.flow_test(target, run.clearance),
                _ => answer,
            })
        })
    }

    fn within_clearance(&self, opcode: u8, run: &Run, label: Label) -> Result<(), Fault> {
        if self.uncleared() == Some(opcode) {
            return Ok(());
        }
        unless_flows(self.flow_test(label, run.clearance), |answer| {
            Fault::above_clearance(self.told_of_clearance(opcode, run, label, answer))
        })
    }

    fn may_lower(&self, run: &Run, new: Label) -> Result<(), Fault> {
        let test = |skipped, from, to| if self.is(skipped) { 0 } else { self.flow_test(from, to) };
        let first = test(Mutant::LowerBelowLabel, run.label, new);
        let second = test(Mutant::LowerGoesUp, new, run.clearance);
        unless_flows(first | second, |both| {
            Fault::bad_lower(match self.mutant {
                Mutant::LowerSilent => 0,
                Mutant::LowerBackwards if first != 0 => Paper.flow_test(new, run.label),
                Mutant::LowerBackwards => Paper.flow_test(run.clearance, new),
                Mutant::LowerTellsBoth => both,
                Mutant::LowerTellsLast if second != 0 => second,
                _ if first != 0 => first,
                _ => second,
            })
        })
    }

    fn may_nest(&self, depth: usize) -> bool {
        match self.mutant {
            Mutant::NineBlocks => depth < NESTED_BLOCKS + 1,
            Mutant::SevenBlocks => depth < NESTED_BLOCKS - 1,
            _ => Paper.may_nest(depth),
        }
    }

    fn may_lend_steps(&self, steps: u16, left: u16) -> bool {
        Paper.may_lend_steps(steps, left) && !(self.is(Mutant::LastStepKept) && steps == left)
    }

    fn may_lend_places(&self, places: usize, left: usize) -> bool {
        match self.mutant {
            Mutant::PlaceCheckByUse => left > 0,
            Mutant::LastPlaceKept => places + 1 < left,
            _ => Paper.may_lend_places(places, left),
        }
    }

    fn raised(&self, raiser: Raiser, current: Label, by: Label, raised: Label) -> Label {
        match (self.mutant, raiser) {
            (Mutant::OpenUnraised, Raiser::Open)
            | (Mutant::OpenFaultUnraised, Raiser::OpenFault)
            | (Mutant::ReadUnraised, Raiser::Read) => current,
            (Mutant::OpenReplaces, Raiser::Open)
            | (Mutant::ReadReplaces, Raiser::Read)
            | (Mutant::RaiseReplaces, Raiser::Raise) => by,
            _ => raised,
        }
    }

    fn unopened(&self, opcode: u8, content: Content, fault: Fault) -> Fault {
        match content {
            Content::Fault(fault) if self.is(Mutant::UnopenedFaultTells) => fault,
            _ => Paper.unopened(opcode, content, fault),
        }
    }

    fn outcome(&self, ending: Ending, to_bound: u32) -> Content {
        let right = Paper.outcome(ending, to_bound);
        match (self.mutant, ending) {
            (Mutant::SpentOverBound, Ending::Spent)
            | (Mutant::FaultOverBound, Ending::Fault(_))
            | (Mutant::ResultOverBound, Ending::Result(_)) => Paper.outcome(ending, 0),
            (Mutant::BoundFaultTells, Ending::Fault(fault)) if to_bound != 0 => {
                Content::Fault(Fault { number: fault.code.into(), ..Fault::ABOVE_BOUND })
            }
            (Mutant::BoundTells, _) if to_bound != 0 => {
                Content::Fault(Fault { number: to_bound, ..Fault::ABOVE_BOUND })
            }
            (Mutant::SealedSilent, Ending::Fault(fault)) if right == Content::Fault(fault) => {
                Content::Fault(if tells_half(fault) { Fault::plain(fault.code) } else { fault })
            }
            (Mutant::CodesSwapped, _) => match right {
                Content::Fault(Fault::ABOVE_BOUND) => Content::Fault(Fault::SPENT),
                Content::Fault(Fault::SPENT) => Content::Fault(Fault::ABOVE_BOUND),
                other => other,
            },
            _ => right,
        }
    }

    fn outcome_label(&self, bound: Label, last: Label) -> Label {
        match self.mutant {
            Mutant::OutcomeByFinalLabel => last,
            Mutant::OutcomeByJoin => bound.join(last),
            _ => bound,
        }
    }

    fn crossing(&self, ending: Ending) -> Option<Fault> {
        match (self.mutant, ending) {
            (Mutant::FaultCrosses, Ending::Fault(fault)) => Some(fault),
            (Mutant::SpentCrosses, Ending::Spent) => Some(Fault::SPENT),
            _ => None,
        }
    }

    fn kept_store(&self, store: &Store) -> Option<Store> {
        self.is(Mutant::RolledBack).then(|| store.clone())
    }

    fn shows(&self, record: Label, last: Label, reader: Label) -> bool {
        match self.mutant {
            Mutant::HiddenShown => true,
            Mutant::ShownByFinalLabel => self.flows(last, reader),
            _ => self.flows(record, reader),
        }
    }

    fn counted(&self, shown: usize, all: usize) -> usize {
        if self.is(Mutant::HiddenCounted) {
            all
        } else {
            shown
        }
    }

    fn blank(&self, field: Field, bytes: &mut [u8]) {
        let blanked = match (self.mutant, field) {
            (Mutant::EndingShown, Field::Ending)
            | (Mutant::StepsShown, Field::Steps)
            | (Mutant::NextPlaceShown, Field::NextPlace)
            | (Mutant::ResultShown, Field::Result)
            | (Mutant::LabelShown | Mutant::OldHidden, Field::Label)
            | (Mutant::ClearanceShown | Mutant::OldHidden, Field::Clearance) => 0,
            (Mutant::OldHidden, Field::Result) => OLD_RECORDS - view::RESULT,
            _ => bytes.len(),
        };
        Paper.blank(field, &mut bytes[..blanked]);
    }

    fn records_at(&self) -> usize {
        match self.mutant {
            Mutant::OldRecordsAt => OLD_RECORDS,
            _ => Paper.records_at(),
        }
    }

    fn length(&self, shown: usize) -> usize {
        match self.mutant {
            Mutant::OldLength => OLD_RECORDS + OLD_RECORD * shown,
            Mutant::OldRecordLength => view::RECORDS + OLD_RECORD * shown,
            _ => Paper.length(shown),
        }
    }

    fn table_words(&self, of: TableOf, table: Table) -> [u64; WORDS] {
        let mut words = Paper.table_words(of, table);
        let turned = match self.mutant {
            Mutant::ValueTurned => TableOf::Value,
            Mutant::RunLabelTurned => TableOf::RunLabel,
            Mutant::ClearanceTurned => TableOf::Clearance,
            Mutant::RecordLabelTurned => TableOf::RecordLabel,
            _ => return words,
        };
        if of == turned {
            words.reverse();
        }
        words
    }

    fn record_at(&self, index: usize) -> usize {
        match self.mutant {
            Mutant::OldRecordsApart => OLD_RECORD * index,
            _ => Paper.record_at(index),
        }
    }

    fn given_back(&self, run: &Run, frame: Frame, fault: Fault) -> Label {
        self.notes.removed(run, frame);
        self.notes.given_back(self.mutant, run, frame, fault)
    }

    fn starts(&self, run: &Run) {
        self.notes.starts(run);
    }

    fn entering(&self, outer: &mut Run, body: &mut Run) {
        self.notes.starts(body);
        match self.mutant {
            Mutant::OuterStepsTaken => body.steps_left += outer.steps_left,
            Mutant::OuterPlacesTaken => body.places.end = outer.places.end,
            Mutant::PlaceCheckByUse => {
                // More may have been lent than there was.
                outer.places.next = outer.places.next.min(outer.places.end);
                body.places.end = body.places.end.min(outer.places.end);
            }
            Mutant::LocalsBlank => body.locals = [Value::ZERO; LOCALS],
            Mutant::StackShared => body.stack = outer.stack.clone(),
            Mutant::FramesShared => body.frames = outer.frames.clone(),
            _ => (),
        }
    }

    fn leaving(&self, outer: &mut Run, body: &Run, ending: Ending) {
        match self.mutant {
            Mutant::StepsByUse => outer.steps_left += body.steps_left,
            Mutant::PlacesByUse | Mutant::PlaceCheckByUse => outer.places.next = body.places.next,
            Mutant::OuterStepsTaken => outer.steps_left = outer.steps_left.min(body.steps_left),
            Mutant::OuterPlacesTaken => outer.places.next = outer.places.next.max(body.places.next),
            Mutant::SpentEndsOuter if ending == Ending::Spent => outer.steps_left = 0,
            Mutant::LabelKept => outer.label = body.label,
            Mutant::ClearanceKept => outer.clearance = body.clearance,
            Mutant::UncaughtBody if matches!(ending, Ending::Fault(_)) => {
                outer.clearance = outer.frames.open().last().map_or(outer.clearance, |frame| frame.clearance);
            }
            Mutant::LocalsShared => outer.locals = body.locals,
            _ => (),
        }
    }

    fn caught(&self, run: &mut Run, fault: Fault) {
        match self.mutant {
            Mutant::TryLabel => run.label = self.notes.label(run),
            Mutant::CodeOnTop => {
                run.stack.drop(2);
                run.stack.push(Value::Number(fault.number));
                run.stack.push(Value::Number(fault.code.into()));
            }
            Mutant::CaughtSilent if tells_half(fault) => run.stack.replace(1, Value::ZERO),
            _ => (),
        }
    }

    fn uncaught(&self, run: &mut Run) {
        run.clearance = self.notes.uncaught(self.mutant, run);
    }

    fn dropped(&self, run: &mut Run, frame: Frame) {
        self.notes.removed(run, frame);
        if self.is(Mutant::DoneClearance) {
            run.clearance = frame.clearance;
        }
    }

    fn obeyed(&self, run: &mut Run, opcode: u8, fault: Option<Fault>) {
        if (opcode, fault) == (TRY, None) {
            self.notes.tried(run);
        }
        match (self.mutant, fault) {
            (Mutant::LabofRaises, None) if opcode == LABOF => {
                if let Value::Label(label) = run.stack.operand(0) {
                    run.label = run.label.join(label);
                }
            }
            (Mutant::OperandsPopped, Some(fault)) if fault != Fault::TOO_FEW_OPERANDS => {
                run.stack.drop(SHAPES[opcode as usize].pops);
            }
            (Mutant::FaultsFree, Some(_)) => run.steps_left += 1,
            _ => (),
        }
    }
}
