//! What the words of a table are used for, as points to be reached by files and by days:
//! masks that six principals do not have, and flow tests that one word alone decides.

use reference::label::{Label, INTEGRITY, SECRECY};
use reference::limits::{MAX_CLAUSES, PRINCIPALS, WORDS};
use reference::script::Clauses;
use reference::table::Table;

#[derive(Clone, Copy, Debug, PartialEq, Eq, PartialOrd, Ord)]
pub enum Word {
    /// A clause has this principal among others, or alone.
    Member(Principal),
    Alone(Principal),
    /// A formula has more clauses than one of six principals can have, or as many as one
    /// of eight can.
    ManyClauses,
    MostClauses,
    /// Two labels of a file differ in this word alone.
    Differ(usize),
    /// A flow test failed in this half by this word alone.
    Fails(Half, usize),
}

type Principal = usize;
type Half = u32;

/// The principals that came last, and the most clauses there were without them.
const LAST: [Principal; 2] = [PRINCIPALS - 2, PRINCIPALS - 1];
const CLAUSES_OF_SIX: usize = 20;

/// Every point there is.
pub fn all_points() -> Vec<Word> {
    let mut points = vec![Word::ManyClauses, Word::MostClauses];
    points.extend(LAST.into_iter().flat_map(|principal| [Word::Member(principal), Word::Alone(principal)]));
    for word in 0..WORDS {
        points.extend([Word::Differ(word), Word::Fails(SECRECY, word), Word::Fails(INTEGRITY, word)]);
    }
    points
}

/// What a formula's clauses reach.
fn of_formula(masks: &[u8]) -> Vec<Word> {
    let mut reached = Vec::new();
    for principal in LAST {
        if masks.contains(&(1 << principal)) {
            reached.push(Word::Alone(principal));
        }
        if masks.iter().any(|mask| mask >> principal & 1 == 1 && !mask.is_power_of_two()) {
            reached.push(Word::Member(principal));
        }
    }
    if masks.len() > CLAUSES_OF_SIX {
        reached.push(Word::ManyClauses);
    }
    if masks.len() == MAX_CLAUSES {
        reached.push(Word::MostClauses);
    }
    reached
}

/// What the labels of a file reach, whose clauses are in `section`.
pub fn of_labels(labels: &[Label], section: &[u8]) -> Vec<Word> {
    let mut reached: Vec<Word> = clauses(section, labels.len())
        .iter()
        .flat_map(|label| [of_formula(&label.secrecy), of_formula(&label.integrity)].concat())
        .collect();
    for (at, one) in labels.iter().enumerate() {
        reached.extend(labels[..at].iter().filter_map(|other| differing(one, other)).map(Word::Differ));
    }
    reached
}

/// The clauses of so many entries, which are well formed.
fn clauses(mut section: &[u8], count: usize) -> Vec<Clauses> {
    let mut take = |length: usize| {
        let (taken, rest) = section.split_at(length);
        section = rest;
        taken.to_vec()
    };
    (0..count)
        .map(|_| {
            let counts = take(2);
            Clauses { secrecy: take(counts[0].into()), integrity: take(counts[1].into()) }
        })
        .collect()
}

/// The only word in which two labels differ, if there is one.
fn differing(one: &Label, other: &Label) -> Option<usize> {
    let same =
        |at: usize| one.secrecy.0[at] == other.secrecy.0[at] && one.integrity.0[at] == other.integrity.0[at];
    only((0..WORDS).filter(|&at| !same(at)))
}

/// What a flow test reaches.
pub fn of_test(from: Label, to: Label) -> impl Iterator<Item = Word> {
    let secrecy = failing(to.secrecy, from.secrecy).map(|word| Word::Fails(SECRECY, word));
    let integrity = failing(from.integrity, to.integrity).map(|word| Word::Fails(INTEGRITY, word));
    secrecy.into_iter().chain(integrity)
}

/// The only word by which `premise` does not imply `conclusion`, if there is one.
fn failing(premise: Table, conclusion: Table) -> Option<usize> {
    only((0..WORDS).filter(|&at| premise.0[at] & !conclusion.0[at] != 0))
}

fn only(mut items: impl Iterator<Item = usize>) -> Option<usize> {
    let first = items.next()?;
    items.next().is_none().then_some(first)
}
