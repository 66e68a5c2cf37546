//! Days that differ in other callers' jobs: one caller's own stay as they are, and must
//! be admitted as before.

use crate::days::job;
use crate::random::Random;
use reference::day::Day;
use reference::day_rules::DayRules;
use reference::day_script::DayScript;
use reference::jobs::{self, Outcome};
use reference::limits::{CALLERS, MAX_JOBS};

/// The valid day with some jobs of other callers taken out, or none, or all, and others
/// put in anywhere, up to as many as it loads with. `caller` has a job in it.
pub fn changed(random: &mut Random, day: &DayScript, caller: u8) -> DayScript {
    let mut changed = day.clone();
    let taken_out = random.pick(&[0, 50, 100]);
    changed.jobs.retain(|job| job.caller == caller || !random.chance(taken_out));
    let room = MAX_JOBS - changed.jobs.len();
    let put_in = if random.chance(20) { room } else { random.below(room.min(4) + 1) };
    for _ in 0..put_in {
        put_in_one(random, &mut changed, caller);
    }
    changed
}

/// Often a greedy job, which takes all that its caller may have, or much of it.
fn put_in_one(random: &mut Random, day: &mut DayScript, caller: u8) {
    let other = (usize::from(caller) + random.within(1, CALLERS - 1)) % CALLERS;
    let mut job = job(random, day, other as u8);
    if random.chance(30) {
        job.steps = day.steps.clamp(1, 2000) as u16;
    }
    let at = random.below(day.jobs.len() + 1);
    day.jobs.insert(at, job);
}

/// Which of a caller's jobs are admitted by these rules.
pub fn admissions<R: DayRules>(rules: &R, day: &DayScript, caller: u8) -> Vec<bool> {
    let file = day.bytes();
    let read = Day::parse_by(rules, &file).expect("a valid day");
    let outcomes = jobs::run(&read, rules);
    let own = day.jobs.iter().zip(&outcomes).filter(|(job, _)| job.caller == caller);
    own.map(|(_, outcome)| matches!(outcome, Outcome::Ran(_))).collect()
}
