//! A caller's jobs are admitted by the limit and by what they declare themselves, and
//! other callers' jobs have no part in it.

use generator::admission::{admitted, reached, Admission, Declared};
use generator::days;
use generator::others::{admissions, changed};
use generator::random::Random;
use reference::day::Day;
use reference::day_script::{DayScript, JobEntry};
use reference::jobs::{self, Outcome};
use reference::limits::MAX_JOBS;
use reference::rules::Paper;

const DAYS: u64 = 4_000;
/// How many days are made of each, for each of its callers.
const CHANGES: usize = 3;

fn declared(jobs: &[JobEntry]) -> Vec<Declared> {
    jobs.iter().map(|job| Declared { caller: job.caller, steps: job.steps }).collect()
}

fn callers(day: &DayScript) -> Vec<u8> {
    let mut callers: Vec<u8> = day.jobs.iter().map(|job| job.caller).collect();
    callers.sort_unstable();
    callers.dedup();
    callers
}

/// A job is skipped if and only if its declared steps exceed the limit less those of the
/// same caller's earlier admitted jobs.
#[test]
fn jobs_are_skipped_by_the_papers_sentence() {
    for seed in 0..DAYS {
        let day = days::day(&mut Random::new(seed));
        let expected = admitted(day.steps, &declared(&day.jobs));
        let file = day.bytes();
        let outcomes = jobs::run(&Day::parse(&file).expect("a valid day"), &Paper);
        let found: Vec<bool> = outcomes.iter().map(|outcome| matches!(outcome, Outcome::Ran(_))).collect();
        assert_eq!(found, expected, "seed {seed}");
    }
}

/// Another caller's extra jobs, put anywhere among a caller's or taken out, do not change
/// which of these are admitted.
#[test]
fn other_callers_jobs_change_no_admission() {
    // Days in which some jobs of the caller are admitted and some are not, and of them
    // those of which one allowance for all callers would admit fewer jobs.
    let (mut mixed, mut telling) = (0, 0);
    for seed in 0..DAYS {
        let mut random = Random::new(seed);
        let day = days::day(&mut random);
        for caller in callers(&day) {
            let before = admissions(&Paper, &day, caller);
            let is_mixed = before.contains(&true) && before.contains(&false);
            for _ in 0..CHANGES {
                let after = changed(&mut random, &day, caller);
                assert_eq!(admissions(&Paper, &after, caller), before, "seed {seed}, caller {caller}");
                let common = reached(after.steps, &declared(&after.jobs)).contains(&Admission::NotCommon);
                mixed += u32::from(is_mixed);
                telling += u32::from(is_mixed && common);
            }
        }
    }
    assert!(mixed > 2_000, "{mixed} days");
    assert!(telling > 500, "{telling} days");
}

/// The caller's own jobs stay, in their order, and the day loads.
#[test]
fn nothing_but_other_callers_jobs_is_changed() {
    let (mut fewer, mut more, mut most, mut alone) = (0, 0, 0, 0);
    for seed in 0..DAYS {
        let mut random = Random::new(seed);
        let day = days::day(&mut random);
        let caller = random.pick(&callers(&day));
        let after = changed(&mut random, &day, caller);
        assert_eq!(Day::parse(&after.bytes()).err(), None, "seed {seed}");
        let own = |day: &DayScript| -> Vec<JobEntry> {
            day.jobs.iter().copied().filter(|job| job.caller == caller).collect()
        };
        assert_eq!(own(&after), own(&day), "seed {seed}");
        assert_eq!((after.steps, &after.records), (day.steps, &day.records), "seed {seed}");
        assert!(after.code.starts_with(&day.code), "seed {seed}");
        fewer += u32::from(after.jobs.len() < day.jobs.len());
        more += u32::from(after.jobs.len() > day.jobs.len());
        most += u32::from(after.jobs.len() == MAX_JOBS);
        alone += u32::from(after.jobs.len() == own(&day).len());
    }
    assert!([fewer, more, most, alone].iter().all(|&days| days > 200), "{fewer} {more} {most} {alone}");
}
