//! Each caller has an allowance of its own: at first the whole limit, taken down by the
//! caller's admitted jobs and by nothing else.

use super::admission::{add_called, small, spin, throw, RUNS, SPENT};
use super::{ends, five, DayCase, JobEnds};
use reference::limits::CALLERS;
use reference::script::Code;
use reference::value::{Ending, Fault};
use JobEnds::Skipped;

pub fn cases() -> Vec<DayCase> {
    [own_limits(), rests(), skips(), greedy(), turns(), numbers(), bounds(), large(), extra(), endings()]
        .concat()
}

/// A job that uses two steps: its caller, the steps that it declares, what becomes of it.
type Called = (u8, u16, JobEnds);

fn called(name: &str, limit: u32, jobs: &[Called]) -> DayCase {
    let mut day = small(limit);
    jobs.iter().for_each(|&(caller, steps, _)| add_called(&mut day, caller, steps, five));
    let expected: Vec<JobEnds> = jobs.iter().map(|&(.., ends)| ends).collect();
    ends(name, &expected, &day)
}

fn own_limits() -> Vec<DayCase> {
    let all: Vec<Called> = (0..CALLERS as u8).map(|caller| (caller, 10, RUNS)).collect();
    let back: Vec<Called> = all.iter().copied().rev().collect();
    vec![
        called(
            "two callers with the whole limit each",
            20,
            &[(3, 20, RUNS), (7, 20, RUNS), (3, 1, Skipped), (7, 1, Skipped)],
        ),
        called(
            "two callers, each with more than half of the limit",
            20,
            &[(3, 11, RUNS), (7, 11, RUNS), (3, 9, RUNS), (7, 9, RUNS), (3, 1, Skipped)],
        ),
        called(
            "three callers, one with few steps",
            20,
            &[(3, 2, RUNS), (7, 19, RUNS), (9, 20, RUNS), (3, 18, RUNS), (7, 2, Skipped), (7, 1, SPENT)],
        ),
        called("all 16 callers use the whole limit", 10, &all),
        called("all 16 callers, from the last to the first", 10, &back),
        called("eight callers with two jobs each", 20, &eight_twice()),
    ]
}

/// The second jobs are in turn as large as what is left, and one step larger.
fn eight_twice() -> Vec<Called> {
    let callers = (1..CALLERS as u8).step_by(2);
    let first = callers.clone().map(|caller| (caller, 12, RUNS));
    let second = callers.map(|caller| if caller % 4 == 1 { (caller, 8, RUNS) } else { (caller, 9, Skipped) });
    first.chain(second).collect()
}

fn rests() -> Vec<DayCase> {
    vec![
        called(
            "a job as large as its caller's rest",
            20,
            &[(3, 12, RUNS), (7, 15, RUNS), (3, 8, RUNS), (7, 5, RUNS), (3, 1, Skipped), (7, 1, Skipped)],
        ),
        called(
            "a job one step larger than its caller's rest",
            20,
            &[(3, 12, RUNS), (7, 15, RUNS), (3, 9, Skipped), (7, 6, Skipped), (3, 8, RUNS), (7, 5, RUNS)],
        ),
        called(
            "a caller's rest is not another's",
            20,
            &[(3, 5, RUNS), (7, 18, RUNS), (7, 15, Skipped), (3, 15, RUNS), (7, 2, RUNS)],
        ),
    ]
}

fn skips() -> Vec<DayCase> {
    vec![
        called(
            "a skipped job is charged nothing, other callers between",
            20,
            &[(3, 15, RUNS), (7, 10, RUNS), (3, 10, Skipped), (7, 10, RUNS), (3, 5, RUNS), (3, 1, Skipped)],
        ),
        called(
            "a skipped job is charged to no other caller",
            20,
            &[(3, 15, RUNS), (3, 20, Skipped), (2, 20, RUNS), (4, 20, RUNS), (7, 20, RUNS)],
        ),
        called(
            "a caller is not shut out by a skipped job, its own or another's",
            20,
            &[(3, 21, Skipped), (7, 21, Skipped), (3, 20, RUNS), (7, 20, RUNS)],
        ),
        called(
            "two callers, each skipped twice",
            20,
            &[
                (3, 15, RUNS),
                (7, 15, RUNS),
                (3, 6, Skipped),
                (7, 6, Skipped),
                (3, 20, Skipped),
                (7, 20, Skipped),
                (3, 5, RUNS),
                (7, 5, RUNS),
            ],
        ),
    ]
}

/// Caller 4 takes what it can get.
fn greedy() -> Vec<DayCase> {
    vec![
        called(
            "a greedy caller first",
            30,
            &[(4, 30, RUNS), (4, 30, Skipped), (1, 20, RUNS), (2, 30, RUNS), (1, 10, RUNS)],
        ),
        called(
            "a greedy caller in the middle",
            30,
            &[(1, 20, RUNS), (4, 30, RUNS), (4, 2, Skipped), (1, 10, RUNS), (2, 30, RUNS)],
        ),
        called(
            "a greedy caller last",
            30,
            &[(1, 20, RUNS), (2, 15, RUNS), (1, 10, RUNS), (4, 31, Skipped), (4, 30, RUNS)],
        ),
        called(
            "a greedy caller before every job",
            30,
            &[
                (4, 30, RUNS),
                (1, 10, RUNS),
                (4, 30, Skipped),
                (1, 10, RUNS),
                (4, 30, Skipped),
                (1, 10, RUNS),
                (4, 30, Skipped),
                (1, 1, Skipped),
            ],
        ),
    ]
}

/// Jobs of several callers in other orders than one behind the other.
fn turns() -> Vec<DayCase> {
    vec![
        called(
            "two callers by turns",
            30,
            &[
                (3, 10, RUNS),
                (7, 11, RUNS),
                (3, 10, RUNS),
                (7, 10, RUNS),
                (3, 10, RUNS),
                (7, 10, Skipped),
                (3, 1, Skipped),
                (7, 9, RUNS),
            ],
        ),
        called(
            "one caller around another",
            30,
            &[(3, 20, RUNS), (7, 20, RUNS), (7, 11, Skipped), (7, 10, RUNS), (3, 11, Skipped), (3, 10, RUNS)],
        ),
        called(
            "one caller behind another",
            30,
            &[(3, 20, RUNS), (3, 11, Skipped), (3, 10, RUNS), (7, 20, RUNS), (7, 11, Skipped), (7, 10, RUNS)],
        ),
        called(
            "three callers by turns",
            30,
            &[
                (2, 10, RUNS),
                (0, 29, RUNS),
                (1, 15, RUNS),
                (2, 20, RUNS),
                (0, 2, Skipped),
                (1, 15, RUNS),
                (2, 1, Skipped),
                (0, 1, SPENT),
                (1, 1, Skipped),
            ],
        ),
    ]
}

/// Callers whose numbers are easily taken for one another.
fn numbers() -> Vec<DayCase> {
    vec![
        called(
            "caller 15 and caller 0",
            10,
            &[(15, 10, RUNS), (0, 10, RUNS), (15, 1, Skipped), (0, 1, Skipped)],
        ),
        called(
            "callers eight apart",
            10,
            &[(0, 10, RUNS), (8, 10, RUNS), (7, 10, RUNS), (15, 10, RUNS), (8, 1, Skipped), (15, 1, Skipped)],
        ),
        called(
            "callers next to one another",
            10,
            &[(6, 10, RUNS), (7, 10, RUNS), (8, 10, RUNS), (9, 10, RUNS), (7, 1, Skipped), (8, 1, Skipped)],
        ),
        // Job 0 is caller 2's, job 3 caller 0's, and so on.
        called(
            "callers whose numbers are other jobs' indices",
            10,
            &[(2, 8, RUNS), (3, 8, RUNS), (5, 8, RUNS), (0, 8, RUNS), (3, 3, Skipped), (2, 2, RUNS)],
        ),
    ]
}

/// Limits at their ends, and around those of a job's 16 bits.
fn bounds() -> Vec<DayCase> {
    vec![
        called(
            "a limit of 0 for several callers",
            0,
            &[(0, 1, Skipped), (15, 1, Skipped), (7, 65_535, Skipped), (0, 1, Skipped)],
        ),
        called(
            "a limit of 1 for several callers",
            1,
            &[(0, 1, SPENT), (15, 2, Skipped), (15, 1, SPENT), (0, 1, Skipped), (7, 1, SPENT)],
        ),
        called(
            "a limit of 65,535 for two callers",
            65_535,
            &[(0, 65_535, RUNS), (15, 65_535, RUNS), (0, 1, Skipped), (15, 1, Skipped)],
        ),
        called(
            "a limit of 65,536 for two callers",
            65_536,
            &[(0, 65_535, RUNS), (15, 65_535, RUNS), (0, 2, Skipped), (15, 1, SPENT), (0, 1, SPENT)],
        ),
    ]
}

/// Two callers by turns with eight jobs each, all of 65,535 steps.
fn large() -> Vec<DayCase> {
    let by_turns = |last| -> Vec<Called> {
        (0..16u8).map(|at| (15 - at % 2, u16::MAX, if at < 14 { RUNS } else { last })).collect()
    };
    vec![
        called("8 times 65,535 steps for each of two callers", 8 * 65_535, &by_turns(RUNS)),
        called("one step fewer for each of two callers", 8 * 65_535 - 1, &by_turns(Skipped)),
        called("a limit of 4,294,967,295 for two callers", u32::MAX, &by_turns(RUNS)),
    ]
}

/// The same four jobs of caller 3, with more and more of other callers' jobs among them.
fn extra() -> Vec<DayCase> {
    let own: [Called; 4] = [(3, 12, RUNS), (3, 9, Skipped), (3, 8, RUNS), (3, 1, Skipped)];
    let among = |name: &str, others: [&[Called]; 5]| {
        let mut jobs = others[0].to_vec();
        for (&job, behind) in own.iter().zip(&others[1..]) {
            jobs.push(job);
            jobs.extend(*behind);
        }
        called(name, 20, &jobs)
    };
    let (all, none): (Called, Called) = ((7, 20, RUNS), (7, 20, Skipped));
    vec![
        among("a caller's jobs alone", [&[], &[], &[], &[], &[]]),
        among("extra jobs in front of a caller's", [&[all, none], &[], &[], &[], &[]]),
        among("an extra job behind a caller's first", [&[], &[all], &[], &[], &[]]),
        among("extra jobs around a caller's skipped one", [&[], &[all], &[none], &[], &[]]),
        among("extra jobs behind a caller's", [&[], &[], &[], &[], &[all, none]]),
        among(
            "extra jobs everywhere, as many as there may be",
            [
                &[(2, 5, RUNS), (4, 15, RUNS), (7, 13, RUNS)],
                &[(2, 16, Skipped), (4, 5, RUNS)],
                &[(11, 20, RUNS), (4, 1, Skipped), (2, 14, RUNS)],
                &[(7, 8, Skipped)],
                &[(7, 7, RUNS), (15, 9, RUNS), (2, 1, SPENT)],
            ],
        ),
    ]
}

/// However a job ends, its own caller is charged what it declares, and no other.
fn endings() -> Vec<DayCase> {
    let after = |name: &str, ending, write: fn(&mut Code)| {
        let mut day = small(20);
        add_called(&mut day, 3, 10, write);
        for (caller, steps) in [(4, 20), (3, 11), (2, 20), (3, 10)] {
            add_called(&mut day, caller, steps, five);
        }
        ends(name, &[JobEnds::Ends(ending), RUNS, Skipped, RUNS, RUNS], &day)
    };
    vec![
        after("a spent job is charged to its caller", Ending::Spent, spin),
        after("a fault's job is charged to its caller", Ending::Fault(Fault::thrown(1)), throw),
    ]
}
