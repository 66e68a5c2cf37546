//! Every mutant is found out, and the original is not.

use mutants::by_hand;
use mutants::list::{Harm, MUTANTS};
use mutants::search::{differs, pairs_needed, tells, view};
use mutants::wrong::Wrong;
use mutants::MOST_PAIRS;
use reference::label::Label;
use reference::opcode::{OPEN, RAISE, READ};
use reference::rules::{Paper, Rules};
use reference::run::Run;
use reference::value::Fault;
use std::cell::Cell;

#[test]
fn generated_pairs_find_every_mutant() {
    for &mutant in MUTANTS {
        let needed = pairs_needed(mutant, MOST_PAIRS);
        println!("{mutant:?} {needed:?}");
        assert!(needed.is_some(), "{mutant:?} passes for the original");
    }
}

#[test]
fn hand_worked_files_find_every_mutant_that_does_not_leak() {
    let cases = cases::all();
    for &mutant in MUTANTS.iter().filter(|mutant| mutant.harm() == Harm::Wrong) {
        let wrong = Wrong::new(mutant);
        assert!(cases.iter().any(|case| differs(&wrong, &case.file)), "{mutant:?} passes for the original");
    }
}

/// Check 24 of RAISE, OPEN and READ on what the label is raised by, and not on the
/// raised label.
#[derive(Default)]
struct ByOperand {
    /// What was joined last to a label.
    by: Cell<Option<Label>>,
}

impl Rules for ByOperand {
    fn join(&self, one: Label, other: Label) -> Label {
        self.by.set(Some(other));
        one.join(other)
    }

    fn within_clearance(&self, opcode: u8, run: &Run, label: Label) -> Result<(), Fault> {
        let by = if matches!(opcode, RAISE | OPEN | READ) { self.by.take() } else { None };
        Paper.within_clearance(opcode, run, by.unwrap_or(label))
    }

    fn obeyed(&self, run: &mut Run, _opcode: u8, _fault: Option<Fault>) {
        assert!(run.label.flows_to(run.clearance));
    }
}

/// As the current label always flows to the clearance, the other of the two joined
/// labels decides each half of the test alone.
#[test]
fn what_raises_tells_the_same_half_as_the_raised_label() {
    for case in cases::all() {
        assert!(!differs(&ByOperand::default(), &case.file), "{}", case.name);
    }
    for seed in 0..MOST_PAIRS {
        assert!(!differs(&ByOperand::default(), &generator::valid(seed)), "seed {seed}");
    }
}

#[test]
fn pairs_by_hand_tell_their_mutants_and_clear_the_original() {
    for (at, (mutants, pair)) in by_hand::pairs().iter().enumerate() {
        assert_ne!(pair.file, pair.other);
        let views = [&pair.file, &pair.other].map(|file| view(&Paper, file, pair.reader));
        assert!(views[0].is_ok(), "pair {at}");
        assert_eq!(views[0], views[1], "pair {at}");
        for &mutant in *mutants {
            assert!(tells(mutant, pair), "pair {at} does not tell {mutant:?}");
        }
    }
}

#[test]
fn there_are_enough_leaks() {
    let leaks = MUTANTS.iter().filter(|mutant| mutant.harm() == Harm::Leak).count();
    assert!(leaks >= 6 + 20, "{leaks}");
}
