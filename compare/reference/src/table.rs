//! Formulas as tables.

use crate::limits::{MASKS, MAX_CLAUSES, WORDS};
use std::ops::{BitAnd, BitOr};

/// A formula: bit i tells whether it holds for the set of principals whose mask is i. The
/// word with the lowest 64 bits is the first.
#[derive(Clone, Copy, Debug, PartialEq, Eq)]
pub struct Table(pub [u64; WORDS]);

impl Table {
    /// Holds for every set of principals.
    pub const TRUE: Table = Table([u64::MAX; WORDS]);
    /// Holds for none.
    pub const FALSE: Table = Table([0; WORDS]);

    /// Whether the formula holds for the set with this mask.
    #[inline]
    pub const fn holds_for(self, set: usize) -> bool {
        self.0[set / 64] >> (set % 64) & 1 == 1
    }

    #[inline]
    pub fn implies(self, conclusion: Table) -> bool {
        // All words are looked at, which is quicker than to stop at one that fails.
        let failing = self.0.iter().zip(conclusion.0).fold(0, |failing, (word, to)| failing | word & !to);
        failing == 0
    }

    /// The table of the sets that a test holds for.
    pub fn of(test: impl Fn(usize) -> bool) -> Table {
        let mut table = Table::FALSE;
        for set in (0..MASKS).filter(|&set| test(set)) {
            table.0[set / 64] |= 1 << (set % 64);
        }
        table
    }
}

impl BitAnd for Table {
    type Output = Table;

    #[inline]
    fn bitand(self, other: Table) -> Table {
        Table(std::array::from_fn(|at| self.0[at] & other.0[at]))
    }
}

impl BitOr for Table {
    type Output = Table;

    #[inline]
    fn bitor(self, other: Table) -> Table {
        Table(std::array::from_fn(|at| self.0[at] | other.0[at]))
    }
}

/// The tables of all clauses: each holds for the sets that share a member with
/// its mask.
static CLAUSES: [Table; MASKS] = tables(true);

/// For each mask, the table of the masks that it is a subset of.
static SUPERSETS: [Table; MASKS] = tables(false);

const fn tables(sharing: bool) -> [Table; MASKS] {
    let mut tables = [Table::FALSE; MASKS];
    let mut pair = 0;
    while pair < MASKS * MASKS {
        let (mask, set) = (pair / MASKS, pair % MASKS);
        let holds = if sharing { mask & set != 0 } else { mask & set == mask };
        tables[mask].0[set / 64] |= (holds as u64) << (set % 64);
        pair += 1;
    }
    tables
}

/// The table of one clause, whose mask is that of a set of principals.
pub fn clause(mask: u8) -> Table {
    CLAUSES[usize::from(mask)]
}

/// The table of the AND of `masks`, each as the table that `clause` gives it, or `None` if
/// the list is malformed.
pub fn formula_by(clause: impl Fn(u8) -> Table, masks: &[u8]) -> Option<Table> {
    if masks.len() > MAX_CLAUSES {
        return None;
    }
    let mut table = Table::TRUE;
    // Holds for the masks that one seen is a subset of. As masks ascend, a mask can
    // only be a subset of a later one.
    let mut covered = Table::FALSE;
    let mut least = 0;
    for &mask in masks {
        let index = usize::from(mask);
        if index < least || index >= MASKS || covered.holds_for(index) {
            return None;
        }
        table = table & clause(mask);
        covered = covered | SUPERSETS[index];
        least = index + 1;
    }
    Some(table)
}

/// The table of the AND of `masks`, or `None` if the list is malformed.
pub fn formula(masks: &[u8]) -> Option<Table> {
    formula_by(clause, masks)
}
