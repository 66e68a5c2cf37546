//! Tables of which some words are taken for others, or left out.

use crate::list::Mutant;
use reference::label::{Label, INTEGRITY, SECRECY};
use reference::limits::WORDS;
use reference::table::{self, Table};

/// The word that the mutant's flow test does not look at.
fn unlooked(mutant: Mutant) -> Option<usize> {
    match mutant {
        Mutant::Word0Unlooked => Some(0),
        Mutant::Word1Unlooked => Some(1),
        Mutant::Word2Unlooked => Some(2),
        Mutant::Word3Unlooked => Some(3),
        _ => None,
    }
}

/// The flow test of mutants that are wrong about words; by the paper `answer`.
pub fn flow_test(mutant: Mutant, from: Label, to: Label, answer: u32) -> u32 {
    let fails = |premise: Table, conclusion: Table| {
        let mut failing = (0..WORDS).filter(|&at| premise.0[at] & !conclusion.0[at] != 0);
        match (mutant, unlooked(mutant)) {
            (Mutant::OneWordEnough, _) => failing.count() == WORDS,
            (_, unlooked) => failing.any(|at| Some(at) != unlooked),
        }
    };
    if mutant != Mutant::OneWordEnough && unlooked(mutant).is_none() {
        return answer;
    }
    SECRECY * u32::from(fails(to.secrecy, from.secrecy))
        + INTEGRITY * u32::from(fails(from.integrity, to.integrity))
}

/// Whether the label flows to the other one, but for one word.
pub fn flows_but_for<const WORD: usize>(from: Label, to: Label) -> bool {
    let without = |table: Table| Table(std::array::from_fn(|at| if at == WORD { 0 } else { table.0[at] }));
    without(to.secrecy).implies(without(from.secrecy))
        && without(from.integrity).implies(without(to.integrity))
}

/// Whether the lowest words would let the label flow to the other one.
pub fn flows_in_lowest_word(from: Label, to: Label) -> bool {
    to.secrecy.0[0] & !from.secrecy.0[0] == 0 && from.integrity.0[0] & !to.integrity.0[0] == 0
}

/// `right`, which was made of `one` and another label, in the lowest word, and else `one`.
pub fn in_lowest_word(right: Label, one: Label) -> Label {
    let lowest = |right: Table, one: Table| {
        let mut table = one;
        table.0[0] = right.0[0];
        table
    };
    Label { secrecy: lowest(right.secrecy, one.secrecy), integrity: lowest(right.integrity, one.integrity) }
}

/// Bits of a word's index: whether its sets have the hirer, and the desk.
const HIRER: usize = 1;
const DESK: usize = 2;

/// A clause's table.
pub fn clause(mutant: Mutant, mask: u8) -> Table {
    let right = table::clause(mask);
    let taken = |word: usize| match mutant {
        Mutant::HirerInNone => word & !HIRER,
        Mutant::DeskInNone => word & !DESK,
        Mutant::BothInNone => 0,
        Mutant::HirerInAll => word | HIRER,
        Mutant::DeskInAll => word | DESK,
        Mutant::HirerAsDesk => [0, 2, 1, 3][word],
        _ => word,
    };
    Table(std::array::from_fn(|word| right.0[taken(word)]))
}
