//! Days, each fixed by its seed: jobs of a few callers that share records and, often,
//! code.

use crate::day_statements::code;
use crate::parties::Parties;
use crate::random::Random;
use crate::{day_invalid, parts};
use reference::day::Day;
use reference::day_script::{DayScript, JobEntry};
use reference::jobs::{self, Outcome};
use reference::limits::{day_header, CALLERS, MAX_CODE};
use reference::opcode::well_formed;
use reference::rules::Paper;
use reference::script::Clauses;

/// The valid day of a seed.
pub fn valid(seed: u64) -> Vec<u8> {
    day(&mut Random::new(seed)).bytes()
}

/// The day of a seed: mostly valid, at times to be refused, and at times with a
/// few bytes changed, so that either may be.
pub fn any(seed: u64) -> Vec<u8> {
    let mut random = Random::new(seed);
    match random.below(100) {
        0..=13 => {
            let refusal = random.pick(&day_invalid::REFUSALS);
            day_invalid::file(&mut random, refusal)
        }
        14..=20 => {
            let mut file = day(&mut random).bytes();
            for _ in 0..random.within(1, 3) {
                let at = random.below(file.len());
                file[at] = random.word() as u8;
            }
            file
        }
        _ => day(&mut random).bytes(),
    }
}

pub fn day(random: &mut Random) -> DayScript {
    day_of(random, Parties::Eight)
}

pub(crate) fn day_of(random: &mut Random, parties: Parties) -> DayScript {
    let labels = parts::labels(random, parties);
    let mut records = parts::records(random, labels.len());
    // References are what jobs pass things through.
    for record in &mut records {
        if random.chance(40) {
            record.kind = 1;
        }
    }
    let mut day = DayScript { labels, records, ..DayScript::default() };
    let count = match random.below(10) {
        0 => 1,
        1 => random.within(8, 16),
        _ => random.within(2, 5),
    };
    let callers = callers(random);
    for _ in 0..count {
        let caller = random.pick(&callers);
        let job = job(random, &mut day, caller);
        day.jobs.push(job);
    }
    day.steps = limit(random, &day);
    day
}

/// Mostly a few callers, so that they have several jobs each. Often they are two that
/// might be taken for one another.
fn callers(random: &mut Random) -> Vec<u8> {
    let any = |random: &mut Random| random.below(CALLERS) as u8;
    let first = any(random);
    let second = match random.below(8) {
        0 => first ^ 8,
        1 => first ^ 1,
        2 => CALLERS as u8 - 1 - first,
        _ => any(random),
    };
    match random.below(10) {
        0 => vec![first],
        1..=5 => vec![first, second],
        6..=8 => vec![first, second, any(random)],
        _ => (0..CALLERS as u8).collect(),
    }
}

/// A job, to be put into `day`, where its code is already.
pub fn job(random: &mut Random, day: &mut DayScript, caller: u8) -> JobEntry {
    let (steps, places) = parts::allotment(random, day.records.len());
    // A loop without end in each of 16 jobs would only take time.
    let steps = if steps == u16::MAX && day.jobs.len() > 1 { 300 } else { steps };
    let (label, clearance) = start(random, &day.labels);
    let (code_at, code_length) = span(random, day, steps);
    JobEntry { caller, label, clearance, zero: 0, steps, places, code_at, code_length }
}

/// A start and a clearance that it flows to: mostly those of a plain file.
fn start(random: &mut Random, labels: &[Clauses]) -> (u8, u8) {
    for _ in 0..4 {
        let (label, clearance) = (random.below(labels.len()), random.below(labels.len()));
        if random.chance(40) && parts::flows(&labels[label], &labels[clearance]) {
            return (label as u8, clearance as u8);
        }
    }
    (0, 1)
}

/// Code of the job's own, or a part of what is there already.
fn span(random: &mut Random, day: &mut DayScript, steps: u16) -> (u16, u16) {
    if !day.code.is_empty() && random.chance(25) {
        if let Some(span) = old_span(random, day) {
            return span;
        }
    }
    let code = code(random, &day.labels, &day.records, steps);
    if random.chance(15) {
        // In no span, so that anything may stand there.
        let gap: Vec<u8> = (0..random.within(1, 8)).map(|_| random.word() as u8).collect();
        if day.code.len() + gap.len() + code.len() <= MAX_CODE {
            day.code.extend(gap);
        }
    }
    if day.code.len() + code.len() <= MAX_CODE {
        return day.add_code(&code);
    }
    old_span(random, day).expect("there is a job if the code is full")
}

/// Another job's span, or any part of the code that check 7 takes.
fn old_span(random: &mut Random, day: &DayScript) -> Option<(u16, u16)> {
    let (labels, records) = (day.labels.len(), day.records.len());
    for _ in 0..10 {
        let at = random.below(day.code.len());
        let length = random.within(1, (day.code.len() - at).min(40));
        if random.chance(60) && well_formed(&day.code[at..at + length], labels, records) {
            return Some((at as u16, length as u16));
        }
    }
    let job = day.jobs.get(random.below(day.jobs.len().max(1)))?;
    Some((job.code_at, job.code_length))
}

/// Mostly enough steps for every caller's jobs, often not quite; and where it is enough
/// for each caller's, often not for all callers' together.
fn limit(random: &mut Random, day: &DayScript) -> u32 {
    let sums = sums(day.jobs.iter().map(|job| (job.caller, job.steps)));
    let most = sums.iter().copied().max().unwrap_or(0);
    let all: u32 = day.jobs.iter().map(|job| u32::from(job.steps)).sum();
    match random.below(20) {
        0 => 0,
        1 => random.word() as u32,
        2..=4 => random.pick(&sums) + random.below(3) as u32 - 1,
        5 => random.below(most as usize + 1) as u32,
        6 | 7 => by_use(random, day) + random.below(3) as u32 - 1,
        8..=11 => random.within(most as usize, all as usize) as u32,
        _ => all + random.below(200) as u32,
    }
}

/// As much as some job declares and the earlier ones of its caller use: where that is not
/// enough, it would be if they were charged what they use.
fn by_use(random: &mut Random, day: &DayScript) -> u32 {
    let at = random.below(day.jobs.len());
    let JobEntry { caller, steps, .. } = day.jobs[at];
    let file = DayScript { steps: u32::MAX, ..day.clone() }.bytes();
    let outcomes = jobs::run(&Day::parse(&file).expect("a valid day"), &Paper);
    let earlier = day.jobs[..at].iter().zip(&outcomes).filter(|(job, _)| job.caller == caller);
    let used = earlier.map(|(_, outcome)| match outcome {
        Outcome::Ran(finished) => u32::from(finished.steps_used),
        Outcome::Skipped(_) => 0,
    });
    u32::from(steps) + used.sum::<u32>()
}

/// For each job what it and the earlier ones of its caller declare together.
fn sums(jobs: impl Iterator<Item = (u8, u16)>) -> Vec<u32> {
    let mut declared = [0; CALLERS];
    jobs.map(|(caller, steps)| {
        let sum = &mut declared[usize::from(caller)];
        *sum += u32::from(steps);
        *sum
    })
    .collect()
}

/// The valid day `file` with as many steps as the first so many jobs of a caller
/// declare, and with one step fewer.
pub fn limits(file: &[u8]) -> Vec<Vec<u8>> {
    let Ok(day) = Day::parse(file) else { return Vec::new() };
    let with = |steps: u32| {
        let mut variant = file.to_vec();
        variant[day_header::STEPS..day_header::LENGTH].copy_from_slice(&steps.to_le_bytes());
        variant
    };
    let sums = sums(day.jobs(&Paper).map(|job| (job.caller, job.steps)));
    sums.into_iter().flat_map(|declared| [with(declared - 1), with(declared)]).collect()
}
