//! The rules of a day beyond those of its scripts, each under a name of its own,
//! so that a mutant can answer one of them wrong. [`Paper`] takes them all.

use crate::label::Label;
use crate::limits::{view, CALLERS};
use crate::machine::Finished;
use crate::parts::Job;
use crate::rules::{Paper, Rules};
use crate::run::Run;
use crate::store::Store;

impl DayRules for Paper {}

pub trait DayRules: Rules {
    /// Check 7 for one job; `well_formed` is the plain file's check.
    fn code_holds(
        &self,
        code: &[u8],
        start: usize,
        length: usize,
        well_formed: impl Fn(&[u8]) -> bool,
    ) -> bool {
        well_formed(&code[start..start + length])
    }

    /// The code that a job's targets count in, and where in it the job starts.
    fn span<'a>(&self, code: &'a [u8], start: usize, length: usize) -> (&'a [u8], usize) {
        (&code[start..start + length], 0)
    }

    /// What each caller may spend at first, in a day with this limit.
    fn allowances(&self, limit: u32, _jobs: &[Job]) -> Allowances {
        [limit; CALLERS]
    }

    /// Whose allowance the job at `index` of the day is measured by.
    fn account(&self, job: &Job, _index: usize) -> usize {
        job.caller.into()
    }

    /// Whether a job that declares so many steps may run.
    fn admits(&self, declared: u16, account: usize, left: &Allowances) -> bool {
        u32::from(declared) <= left[account]
    }

    /// Takes down what is left, for a job that ran or was skipped.
    fn charge(&self, left: &mut Allowances, account: usize, job: &Job, ran: Option<&Finished>) {
        if ran.is_some() {
            left[account] -= u32::from(job.steps);
        }
    }

    /// The store that the next job finds. `before` is what this one found, and
    /// `inputs` the count of input records.
    fn handed_on(&self, _before: Store, finished: &Finished, inputs: usize) -> Store {
        let mut store = finished.store.clone();
        store.empty_from(inputs);
        store.replace_handles_from(inputs);
        store
    }

    /// The six numbers in front of a skipped job's view.
    fn skipped_numbers(&self, _job: &Job, _inputs: usize, _reader: Label) -> [u16; 6] {
        [SKIPPED, 0, 0, 0, view::RECORDS as u16, view::RECORDS as u16]
    }

    /// How many bytes a skipped job's view has.
    fn skipped_length(&self) -> usize {
        view::RECORDS
    }

    /// Check 9: what the buffer must be long enough for.
    fn needed(&self, lengths: &[usize]) -> usize {
        lengths.iter().sum()
    }

    // The paper has nothing more happen at these moments.

    /// A job is about to start, behind those that ran.
    fn starting(&self, _run: &mut Run, _last: Option<&Finished>) {}

    /// A job has ended that found its caller with this allowance. Its view is not
    /// yet fixed.
    fn ended(&self, _finished: &mut Finished, _job: &Job, _allowance: u32, _inputs: usize) {}

    /// The views are known, and check 9 is next.
    fn before_check(&self, _views: &[u8], _buffer: &mut [u8]) {}
}

/// The steps that each caller has left, by its number.
pub type Allowances = [u32; CALLERS];

/// The ending of a skipped job.
pub const SKIPPED: u16 = 4;
