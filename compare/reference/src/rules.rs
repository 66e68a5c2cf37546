//! The rules that keep hidden numbers hidden, each under a name of its own, and those
//! by which numbers are written.
//!
//! The interpreter asks a `Rules` at every such decision. [`Paper`] answers as
//! the paper does: it takes every method as it stands here, and the compiler
//! folds them into the interpreter. Tests put wrong rules in their stead, to
//! see whether the difference shows.

use crate::label::Label;
use crate::limits::{shown, view, NESTED_BLOCKS, WORDS};
use crate::opcode::OPEN;
use crate::run::{Frame, Run};
use crate::store::Store;
use crate::table::{self, Table};
use crate::value::{Content, Ending, Fault};

/// The paper's rules.
pub struct Paper;

impl Rules for Paper {}

/// What asks for the label to be raised.
#[derive(Clone, Copy, Debug, PartialEq, Eq)]
pub enum Raiser {
    Raise,
    Open,
    /// OPEN of a sealed fault, which is thrown next.
    OpenFault,
    Read,
    /// READ of a reference that holds a fault, which is thrown next.
    ReadFault,
}

impl Raiser {
    /// The raiser that OPEN or READ is, as the record's content is.
    #[inline]
    pub fn of(opcode: u8, content: Content) -> Raiser {
        match (opcode, content) {
            (OPEN, Content::Value(_)) => Raiser::Open,
            (OPEN, Content::Fault(_)) => Raiser::OpenFault,
            (_, Content::Value(_)) => Raiser::Read,
            (_, Content::Fault(_)) => Raiser::ReadFault,
        }
    }
}

/// A part of the view that is 0 where the final label is hidden.
#[derive(Clone, Copy, Debug, PartialEq, Eq)]
pub enum Field {
    Ending,
    Steps,
    NextPlace,
    Result,
    Label,
    Clearance,
}

/// What a table in a view is a part of.
#[derive(Clone, Copy, Debug, PartialEq, Eq)]
pub enum TableOf {
    Value,
    RunLabel,
    Clearance,
    RecordLabel,
}

/// `fault` with the flow test's answer, unless that is 0.
#[inline]
pub fn unless_flows(answer: u32, fault: impl Fn(u32) -> Fault) -> Result<(), Fault> {
    if answer == 0 {
        Ok(())
    } else {
        Err(fault(answer))
    }
}

pub trait Rules {
    /// The table of a clause.
    #[inline]
    fn clause(&self, mask: u8) -> Table {
        table::clause(mask)
    }

    /// The flow test: 0, or which half failed.
    #[inline]
    fn flow_test(&self, from: Label, to: Label) -> u32 {
        from.flow_test(to)
    }

    #[inline]
    fn flows(&self, from: Label, to: Label) -> bool {
        self.flow_test(from, to) == 0
    }

    /// What FLOWS pushes.
    #[inline]
    fn pushed_by_flows(&self, answer: u32) -> u32 {
        (answer == 0).into()
    }

    #[inline]
    fn join(&self, one: Label, other: Label) -> Label {
        one.join(other)
    }

    #[inline]
    fn meet(&self, one: Label, other: Label) -> Label {
        one.meet(other)
    }

    /// Check 23, for SEAL, NEW, WRITE and BLOCK.
    #[inline]
    fn may_target(&self, _opcode: u8, run: &Run, target: Label) -> Result<(), Fault> {
        unless_flows(self.flow_test(run.label, target), Fault::above_target)
    }

    /// Check 24, for the targets of check 23 and the labels that RAISE, OPEN
    /// and READ would give.
    #[inline]
    fn within_clearance(&self, _opcode: u8, run: &Run, label: Label) -> Result<(), Fault> {
        unless_flows(self.flow_test(label, run.clearance), Fault::above_clearance)
    }

    /// Check 25: the first of its tests that fails speaks.
    #[inline]
    fn may_lower(&self, run: &Run, new: Label) -> Result<(), Fault> {
        unless_flows(self.flow_test(run.label, new), Fault::bad_lower)?;
        unless_flows(self.flow_test(new, run.clearance), Fault::bad_lower)
    }

    /// Check 28: whether a run inside `depth` blocks may start another.
    #[inline]
    fn may_nest(&self, depth: usize) -> bool {
        depth < NESTED_BLOCKS
    }

    /// Check 27, with the steps left after BLOCK's own.
    #[inline]
    fn may_lend_steps(&self, steps: u16, left: u16) -> bool {
        steps <= left
    }

    /// Check 26 of BLOCK: one place is the outcome's.
    #[inline]
    fn may_lend_places(&self, places: usize, left: usize) -> bool {
        places < left
    }

    /// The current label after it was found that `raised`, its join with `by`,
    /// is within the clearance.
    #[inline]
    fn raised(&self, _raiser: Raiser, _current: Label, _by: Label, raised: Label) -> Label {
        raised
    }

    /// What OPEN or READ throws where the raised label is above the clearance:
    /// `fault`, that of check 24.
    #[inline]
    fn unopened(&self, _opcode: u8, _content: Content, fault: Fault) -> Fault {
        fault
    }

    /// A fault for what a record holds that WRITE or LABOF is given: none, as
    /// these do not look at it.
    #[inline]
    fn passes_over(&self, _opcode: u8, _content: Content) -> Result<(), Fault> {
        Ok(())
    }

    /// What a handle to an empty place gives.
    fn no_record(&self) -> Fault {
        unreachable!("a handle is made with its record and goes with it")
    }

    /// The clearance that a handler runs with: the one that stood at the TRY of
    /// `frame`, which caught `fault`. That of the throw is still the run's.
    #[inline]
    fn given_back(&self, _run: &Run, frame: Frame, _fault: Fault) -> Label {
        frame.clearance
    }

    /// What a block's outcome holds; `to_bound` is the flow test of the body's final
    /// label to the bound.
    #[inline]
    fn outcome(&self, ending: Ending, to_bound: u32) -> Content {
        if to_bound != 0 {
            return Content::Fault(Fault::ABOVE_BOUND);
        }
        match ending {
            Ending::Result(value) => Content::Value(value),
            Ending::Fault(fault) => Content::Fault(fault),
            Ending::Spent => Content::Fault(Fault::SPENT),
        }
    }

    #[inline]
    fn outcome_label(&self, bound: Label, _last: Label) -> Label {
        bound
    }

    /// A fault of the body that BLOCK itself throws: none.
    #[inline]
    fn crossing(&self, _ending: Ending) -> Option<Fault> {
        None
    }

    /// The store to go back to if the body's label passes the bound: none, as
    /// what a body made stays.
    #[inline]
    fn kept_store(&self, _store: &Store) -> Option<Store> {
        None
    }

    /// Whether the view shows a record.
    #[inline]
    fn shows(&self, record: Label, _last: Label, reader: Label) -> bool {
        self.flows(record, reader)
    }

    /// The count of records that the view gives.
    #[inline]
    fn counted(&self, shown: usize, _all: usize) -> usize {
        shown
    }

    /// Puts in place of `field` what the view has where the final label is hidden: 0.
    #[inline]
    fn blank(&self, _field: Field, bytes: &mut [u8]) {
        bytes.fill(0);
    }

    /// The view's fifth number: where its records start.
    #[inline]
    fn records_at(&self) -> usize {
        view::RECORDS
    }

    /// The view's sixth number: its length, with so many records shown.
    #[inline]
    fn length(&self, shown: usize) -> usize {
        view::RECORDS + shown::LENGTH * shown
    }

    /// Where behind the first record that is shown the one with this index starts.
    #[inline]
    fn record_at(&self, index: usize) -> usize {
        shown::LENGTH * index
    }

    /// The words of a table in the order that the view has them in.
    #[inline]
    fn table_words(&self, _of: TableOf, table: Table) -> [u64; WORDS] {
        table.0
    }

    /// The words of a number, a place or a fault's code: as many as a table has, and 0
    /// above the number.
    #[inline]
    fn number_words(&self, number: u32) -> [u64; WORDS] {
        let mut words = [0; WORDS];
        words[0] = number.into();
        words
    }

    /// How the view has one of its 16-bit numbers.
    #[inline]
    fn short_bytes(&self, number: u16) -> [u8; 2] {
        number.to_le_bytes()
    }

    /// How the view has one of its words.
    #[inline]
    fn word_bytes(&self, word: u64) -> [u8; 8] {
        word.to_le_bytes()
    }

    /// Whether a line has a space before this byte of a field.
    #[inline]
    fn parts_field(&self, _at: usize) -> bool {
        false
    }

    /// How a line has a byte of the view.
    #[inline]
    fn digits(&self, byte: u8) -> [char; 2] {
        [byte >> 4, byte & 15].map(|digit| char::from_digit(digit.into(), 16).expect("a digit below 16"))
    }

    // The paper has nothing more happen at these moments.

    /// The script of a file or of a job starts.
    #[inline]
    fn starts(&self, _run: &Run) {}

    /// A body is about to start; `outer` has paid for it.
    #[inline]
    fn entering(&self, _outer: &mut Run, _body: &mut Run) {}

    /// A body has ended; `outer` is as it was, less what it paid.
    #[inline]
    fn leaving(&self, _outer: &mut Run, _body: &Run, _ending: Ending) {}

    /// A fault was caught; the handler's first instruction is next.
    #[inline]
    fn caught(&self, _run: &mut Run, _fault: Fault) {}

    /// A fault was not caught; the run ends with it.
    #[inline]
    fn uncaught(&self, _run: &mut Run) {}

    /// DONE has dropped `frame`.
    #[inline]
    fn dropped(&self, _run: &mut Run, _frame: Frame) {}

    /// An instruction was obeyed, or threw `fault`.
    #[inline]
    fn obeyed(&self, _run: &mut Run, _opcode: u8, _fault: Option<Fault>) {}
}
