//! The mutants of admission: what callers have at first, whose allowance a job is
//! measured by, and what is taken down.

use crate::day_list::DayMutant;
use reference::day_rules::Allowances;
use reference::limits::CALLERS;
use reference::machine::Finished;
use reference::parts::Job;
use reference::value::Ending;

/// What each caller may spend at first.
pub fn allowances(mutant: DayMutant, limit: u32, jobs: &[Job]) -> Allowances {
    let mut declared = [0; CALLERS];
    jobs.iter().for_each(|job| declared[usize::from(job.caller)] += u32::from(job.steps));
    let callers = declared.iter().filter(|&&steps| steps > 0).count() as u32;
    match mutant {
        DayMutant::LimitDivided => [limit / callers; CALLERS],
        DayMutant::Sixteenths => [limit / CALLERS as u32; CALLERS],
        DayMutant::LimitsPooled => [limit.saturating_mul(callers); CALLERS],
        DayMutant::ShortLimit => [limit % 65_536; CALLERS],
        DayMutant::AllOrNone => declared.map(|steps| if steps <= limit { limit } else { 0 }),
        _ => [limit; CALLERS],
    }
}

/// Whose allowance a job is measured by.
pub fn account(mutant: DayMutant, job: &Job, index: usize) -> usize {
    let caller = usize::from(job.caller);
    match mutant {
        DayMutant::OneForAll | DayMutant::LimitsPooled => 0,
        DayMutant::ByIndex => index,
        DayMutant::EightApart => caller % 8,
        DayMutant::FirstAndLast => caller % 15,
        DayMutant::Neighbours => caller / 2,
        _ => caller,
    }
}

fn next(account: usize) -> usize {
    (account + 1) % CALLERS
}

/// Whether a job may run.
pub fn admits(mutant: DayMutant, declared: u16, account: usize, left: &Allowances) -> bool {
    let (declared, own) = (u32::from(declared), left[account]);
    match mutant {
        DayMutant::LastStepsKept => declared < own,
        DayMutant::Unchecked => true,
        DayMutant::TakenFirst => declared <= own.wrapping_sub(declared),
        DayMutant::SignedLeft => i64::from(declared) <= i64::from(own as i32),
        DayMutant::Borrowed => declared <= own.saturating_add(left[next(account)]),
        _ => declared <= own,
    }
}

/// How many steps are taken down.
fn charged(mutant: DayMutant, job: &Job, ran: Option<&Finished>) -> u32 {
    let declared = u32::from(job.steps);
    match (mutant, ran) {
        (DayMutant::NothingCharged, _) => 0,
        (DayMutant::UsedCharged, Some(finished)) => finished.steps_used.into(),
        (DayMutant::FaultFree, Some(Finished { ending: Ending::Fault(_), .. })) => 0,
        (DayMutant::SkippedCharged | DayMutant::SkippedWraps | DayMutant::TakenFirst, None) => declared,
        _ => ran.map_or(0, |_| declared),
    }
}

/// Takes down what is left in a day of this limit.
pub fn charge(
    mutant: DayMutant,
    limit: u32,
    left: &mut Allowances,
    account: usize,
    job: &Job,
    ran: Option<&Finished>,
) {
    let charged = charged(mutant, job, ran);
    let (own, next) = (left[account], next(account));
    // By the papers no more is charged than there is.
    let rest = own.saturating_sub(charged);
    match mutant {
        DayMutant::NextCharged => left[next] = left[next].saturating_sub(charged),
        DayMutant::FirstCharged if own < limit => (),
        DayMutant::LastCharged if ran.is_some() => left[account] = limit - charged,
        DayMutant::SkippedWraps | DayMutant::TakenFirst | DayMutant::Unchecked => {
            left[account] = own.wrapping_sub(charged);
        }
        DayMutant::Borrowed => {
            left[next] -= charged.saturating_sub(own);
            left[account] = rest;
        }
        DayMutant::Refilled => {
            *left = [limit; CALLERS];
            left[account] = rest;
        }
        _ => left[account] = rest,
    }
    shut_out(mutant, left, account, ran.map(|finished| finished.ending));
}

/// A job that ended so, or was skipped, may be the last of its caller, or of all.
fn shut_out(mutant: DayMutant, left: &mut Allowances, account: usize, ending: Option<Ending>) {
    match (mutant, ending) {
        (DayMutant::SkipEndsCaller, None)
        | (DayMutant::FaultEndsCaller, Some(Ending::Fault(_)))
        | (DayMutant::SpentEndsCaller, Some(Ending::Spent)) => left[account] = 0,
        (DayMutant::SkipEndsDay, None)
        | (DayMutant::FaultEndsDay, Some(Ending::Fault(_)))
        | (DayMutant::SpentEndsDay, Some(Ending::Spent)) => *left = [0; CALLERS],
        _ => (),
    }
}
