//! What caught faults give back, as points to be reached by files and by days.

use reference::label::Label;
use reference::limits::NESTED_BLOCKS;
use reference::opcode::*;
use reference::run::{Frame, Run};
use reference::value::Fault;
use std::cell::Cell;

#[derive(Clone, Copy, Debug, PartialEq, Eq, PartialOrd, Ord)]
pub enum Back {
    /// A fault was caught inside so many blocks, and gave back a higher clearance than
    /// that of the throw.
    Gave(Depth),
    /// So it did, and it was this fault.
    GaveFor(FaultCode),
    /// So it did, and an older frame kept a clearance that is higher still.
    GaveBelow(Depth),
    /// A fault was caught under the clearance of its frame, and an older one kept a higher.
    KeptBelow(Depth),
    /// DONE dropped a frame with a higher clearance than that of the run.
    Dropped(Depth),
    /// A fault was not caught, and the clearance was lower than at the script's start.
    Uncaught,
    /// A body's fault was not caught, and a frame of the outer run kept a higher clearance.
    UncaughtBody,
    /// The instruction did what the clearance of the throw would have forbidden.
    Regained(Opcode),
}

type Opcode = u8;
type FaultCode = u8;
type Depth = usize;

/// The instructions that a clearance is asked for.
pub const ASKING: [Opcode; 8] = [RAISE, LOWER, SEAL, OPEN, NEW, READ, WRITE, BLOCK];

/// What files can reach.
pub fn of_files() -> Vec<Back> {
    use Back::*;
    let mut points: Vec<Back> = (0..=NESTED_BLOCKS).map(Gave).collect();
    points.extend((20..=32).map(GaveFor));
    points.extend((0..=1).flat_map(|depth| [GaveBelow(depth), KeptBelow(depth), Dropped(depth)]));
    points.extend([Uncaught, UncaughtBody]);
    points.extend(ASKING.map(Regained));
    points
}

/// What days have to reach: their jobs run as files do.
pub fn of_days() -> Vec<Back> {
    use Back::*;
    let mut points = [24, 25, 30, 33].map(GaveFor).to_vec();
    points
        .extend((0..=1).flat_map(|depth| [Gave(depth), GaveBelow(depth), KeptBelow(depth), Dropped(depth)]));
    points.extend([Uncaught, UncaughtBody]);
    points.extend([OPEN, READ, SEAL].map(Regained));
    points
}

/// What is to be known of the runs under way, to tell which points they reach.
#[derive(Default)]
pub struct Watch {
    start: Cell<Option<Label>>,
    /// By depth, the clearance of the last throw after which a higher one was given back.
    of_throw: [Cell<Option<Label>>; NESTED_BLOCKS + 1],
}

/// Whether `one` is below `other` and not the same.
fn lower(one: Label, other: Label) -> bool {
    one != other && one.flows_to(other)
}

impl Watch {
    pub fn starts(&self, run: &Run) {
        self.start.set(Some(run.clearance));
        self.enters(run);
    }

    pub fn enters(&self, run: &Run) {
        self.of_throw[run.depth].set(None);
    }

    pub fn caught(&self, run: &Run, frame: Frame, fault: Fault) -> Vec<Back> {
        let below = run.frames.open().iter().any(|older| lower(frame.clearance, older.clearance));
        let depth = run.depth;
        if !lower(run.clearance, frame.clearance) {
            return below.then_some(Back::KeptBelow(depth)).into_iter().collect();
        }
        self.of_throw[depth].set(Some(run.clearance));
        let mut reached = vec![Back::Gave(depth), Back::GaveFor(fault.code)];
        reached.extend(below.then_some(Back::GaveBelow(depth)));
        reached
    }

    pub fn dropped(&self, run: &Run, frame: Frame) -> Option<Back> {
        lower(run.clearance, frame.clearance).then_some(Back::Dropped(run.depth))
    }

    pub fn uncaught(&self, run: &Run) -> Option<Back> {
        let lowered = self.start.get().is_some_and(|start| lower(run.clearance, start));
        (lowered && run.depth == 0).then_some(Back::Uncaught)
    }

    /// A body of the run has ended with a fault.
    pub fn uncaught_below(&self, outer: &Run) -> Option<Back> {
        let newest = outer.frames.open().last()?;
        lower(outer.clearance, newest.clearance).then_some(Back::UncaughtBody)
    }

    /// The clearance was asked for `label`, and forbade nothing.
    pub fn allowed(&self, opcode: u8, run: &Run, label: Label) -> Option<Back> {
        let of_throw = self.of_throw[run.depth].get()?;
        (!label.flows_to(of_throw)).then_some(Back::Regained(opcode))
    }
}
