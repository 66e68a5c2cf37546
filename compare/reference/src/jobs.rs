//! Running a day: its jobs, one behind the other.

use crate::day::Day;
use crate::day_rules::DayRules;
use crate::label::Label;
use crate::machine::{self, Finished};
use crate::parts::{Job, Refusal};
use crate::run::Run;
use crate::store::Store;
use crate::view as views;

/// What became of a job.
#[derive(Clone, Debug)]
pub enum Outcome<'a> {
    Ran(Finished),
    Skipped(Job<'a>),
}

/// Runs the jobs of a day that stood up to checks 1 to 7 and 10.
pub fn run<'a, R: DayRules>(day: &Day<'a>, rules: &R) -> Vec<Outcome<'a>> {
    let inputs = day.parts.record_count();
    let jobs: Vec<Job> = day.jobs(rules).collect();
    let mut store = Store::new(&day.parts);
    let mut left = rules.allowances(day.steps, &jobs);
    let mut outcomes = Vec::new();
    for (index, job) in jobs.into_iter().enumerate() {
        let account = rules.account(&job, index);
        if !rules.admits(job.steps, account, &left) {
            rules.charge(&mut left, account, &job, None);
            outcomes.push(Outcome::Skipped(job));
            continue;
        }
        let mut run = Run::outermost(&job, inputs);
        rules.starting(&mut run, last(&outcomes));
        let mut finished = machine::run_job(&day.parts, &job, run, store.clone(), rules);
        rules.ended(&mut finished, &job, left[account], inputs);
        rules.charge(&mut left, account, &job, Some(&finished));
        store = rules.handed_on(store, &finished, inputs);
        outcomes.push(Outcome::Ran(finished));
    }
    outcomes
}

/// The last job that ran.
fn last<'b>(outcomes: &'b [Outcome]) -> Option<&'b Finished> {
    outcomes.iter().rev().find_map(|outcome| match outcome {
        Outcome::Ran(finished) => Some(finished),
        Outcome::Skipped(_) => None,
    })
}

/// The view of each job.
pub fn views<R: DayRules>(day: &Day, outcomes: &[Outcome], reader: Label, rules: &R) -> Vec<Vec<u8>> {
    let inputs = day.parts.record_count();
    let one = |outcome: &Outcome| match outcome {
        Outcome::Ran(finished) => views::bytes(finished, reader, rules),
        Outcome::Skipped(job) => {
            let numbers = rules.skipped_numbers(job, inputs, reader);
            let mut view: Vec<u8> =
                numbers.into_iter().flat_map(|number| rules.short_bytes(number)).collect();
            view.resize(rules.skipped_length(), 0);
            view
        }
    };
    outcomes.iter().map(one).collect()
}

/// Puts the views end to end into the front of `buffer`, if it is long enough
/// for them all, and gives their length.
pub fn write<R: DayRules>(views: &[Vec<u8>], buffer: &mut [u8], rules: &R) -> Result<usize, Refusal> {
    let lengths: Vec<usize> = views.iter().map(Vec::len).collect();
    let views = views.concat();
    rules.before_check(&views, buffer);
    if buffer.len() < rules.needed(&lengths) {
        return Err(Refusal::Buffer);
    }
    // With the paper's check 9 all of them are written.
    let written = views.len().min(buffer.len());
    buffer[..written].copy_from_slice(&views[..written]);
    Ok(views.len())
}
