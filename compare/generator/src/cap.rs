//! Looks at every state that a run comes to, those of bodies too: the label stays within
//! the clearance, and every clearance within the one that the script started with.

use reference::day_rules::DayRules;
use reference::label::Label;
use reference::opcode::TRY;
use reference::rules::Rules;
use reference::run::Run;
use reference::value::{Ending, Fault};
use std::cell::Cell;

/// The paper's rules; a state that is not within the cap panics.
#[derive(Default)]
pub struct Cap {
    start: Cell<Option<Label>>,
    pub states: Cell<u64>,
    /// Clearances in frames that were not the starting one.
    pub lowered_frames: Cell<u64>,
}

impl Cap {
    fn look(&self, run: &Run) {
        let start = self.start.get().expect("a script has started");
        self.states.set(self.states.get() + 1);
        assert!(run.label.flows_to(run.clearance), "the label has passed the clearance");
        assert!(run.clearance.flows_to(start), "the clearance has passed the first one");
        // Frames only ever stand on others with the same clearance or a higher one.
        let mut older = start;
        for frame in run.frames.open() {
            assert!(frame.clearance.flows_to(start), "a frame's clearance has passed the first one");
            assert!(frame.clearance.flows_to(older), "a frame's clearance has passed an older one");
            older = frame.clearance;
        }
        assert!(run.clearance.flows_to(older), "the clearance has passed the newest frame's");
    }
}

impl Rules for Cap {
    fn starts(&self, run: &Run) {
        self.start.set(Some(run.clearance));
        self.look(run);
    }

    fn entering(&self, outer: &mut Run, body: &mut Run) {
        self.look(outer);
        self.look(body);
    }

    fn leaving(&self, outer: &mut Run, body: &Run, _ending: Ending) {
        self.look(outer);
        self.look(body);
    }

    fn caught(&self, run: &mut Run, _fault: Fault) {
        self.look(run);
    }

    fn obeyed(&self, run: &mut Run, opcode: u8, fault: Option<Fault>) {
        self.look(run);
        if opcode == TRY && fault.is_none() && self.start.get() != Some(run.clearance) {
            self.lowered_frames.set(self.lowered_frames.get() + 1);
        }
    }
}

impl DayRules for Cap {}
