//! Mutants of what a caught fault gives back, and what they have to note for it.

use crate::list::Mutant;
use reference::label::Label;
use reference::limits::{FRAMES, NESTED_BLOCKS};
use reference::run::{Frame, Run};
use reference::value::Fault;
use std::cell::{Cell, RefCell};

/// What is noted of a run.
#[derive(Clone, Copy)]
struct Noted {
    /// The label at the TRY of each frame.
    labels: [Label; FRAMES],
    /// The clearance at the start, at the last TRY, and of the frame removed last.
    start: Label,
    last_try: Label,
    removed: Option<Label>,
}

const NOTHING: Noted =
    Noted { labels: [Label::PUBLIC; FRAMES], start: Label::PUBLIC, last_try: Label::PUBLIC, removed: None };

/// What is noted of the runs under way, by depth; one mutant nests a block too many.
pub struct Notes {
    runs: RefCell<[Noted; NESTED_BLOCKS + 2]>,
    /// The clearance at the last TRY of all runs.
    last_try: Cell<Label>,
}

impl Default for Notes {
    fn default() -> Notes {
        Notes { runs: RefCell::new([NOTHING; NESTED_BLOCKS + 2]), last_try: Cell::new(Label::PUBLIC) }
    }
}

impl Notes {
    /// A script or a body starts.
    pub fn starts(&self, run: &Run) {
        self.runs.borrow_mut()[run.depth] = Noted { start: run.clearance, ..NOTHING };
    }

    /// TRY has pushed a frame.
    pub fn tried(&self, run: &Run) {
        let noted = &mut self.runs.borrow_mut()[run.depth];
        noted.labels[run.frames.open().len() - 1] = run.label;
        noted.last_try = run.clearance;
        self.last_try.set(run.clearance);
    }

    /// The run's newest frame was removed, by a fault or by DONE.
    pub fn removed(&self, run: &Run, frame: Frame) {
        self.runs.borrow_mut()[run.depth].removed = Some(frame.clearance);
    }

    /// The label at the TRY of the frame that was removed last.
    pub fn label(&self, run: &Run) -> Label {
        self.runs.borrow()[run.depth].labels[run.frames.open().len()]
    }

    /// The clearance that a handler runs with; `frame` caught `fault`.
    pub fn given_back(&self, mutant: Mutant, run: &Run, frame: Frame, fault: Fault) -> Label {
        let runs = self.runs.borrow();
        let open = run.frames.open();
        match mutant {
            Mutant::ThrowClearance => run.clearance,
            Mutant::ThrowOnly if fault.code != THROWN => run.clearance,
            Mutant::ThrowKeeps if fault.code == THROWN => run.clearance,
            Mutant::FlowFaultsKeep if matches!(fault.code, 23..=25) => run.clearance,
            Mutant::BodyKeeps if run.depth > 0 => run.clearance,
            Mutant::LastStepKeeps if run.steps_left == 0 => run.clearance,
            Mutant::OldestClearance => open.first().unwrap_or(&frame).clearance,
            Mutant::NextClearance => open.last().unwrap_or(&frame).clearance,
            Mutant::StartClearance => runs[0].start,
            Mutant::OuterClearance => {
                if run.depth > 0 {
                    runs[run.depth].start
                } else {
                    frame.clearance
                }
            }
            Mutant::LastTry => runs[run.depth].last_try,
            Mutant::LastTryOfAll => self.last_try.get(),
            _ => frame.clearance,
        }
    }

    /// The clearance of a run that an uncaught fault ends.
    pub fn uncaught(&self, mutant: Mutant, run: &Run) -> Label {
        let noted = self.runs.borrow()[run.depth];
        match mutant {
            Mutant::UncaughtRemoved => noted.removed.unwrap_or(run.clearance),
            Mutant::UncaughtStart => noted.start,
            _ => run.clearance,
        }
    }
}

/// The code of THROW's fault.
const THROWN: u8 = 30;
