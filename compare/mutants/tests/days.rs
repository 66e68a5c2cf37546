//! Every mutant of days is found out, and the original is not.

use cases::days;
use generator::others::{admissions, changed};
use generator::random::Random;
use mutants::day_by_hand;
use mutants::day_list::{DayMutant, DAY_MUTANTS};
use mutants::day_loader::PAPER;
use mutants::day_search::{differs, leaks, pairs_needed, read, tells, views};
use mutants::day_wrong::WrongDay;
use mutants::list::{Harm, Mutant, MUTANTS};
use mutants::wrong::Wrong;
use mutants::wrong_day_loaders;
use reference::day::Day;
use reference::limits::MAX_DAY;
use reference::rules::Paper;

#[test]
fn generated_pairs_find_every_mutant() {
    for &mutant in DAY_MUTANTS {
        let needed = pairs_needed(mutant, mutants::MOST_DAY_PAIRS);
        assert!(needed.is_some(), "{mutant:?} passes for the original");
    }
}

/// Leaks show on alike pairs, the rest on hand-worked days.
#[test]
fn every_mutant_is_found_by_hand() {
    let (pairs, cases) = (day_by_hand::pairs(), days::all());
    for &mutant in DAY_MUTANTS {
        let found = match mutant.harm() {
            Harm::Leak => pairs.iter().any(|(_, pair)| leaks(mutant, pair)),
            Harm::Wrong => cases.iter().any(|case| differs(mutant, &case.file)),
        };
        assert!(found, "{mutant:?} passes for the original");
    }
}

/// A leak is wrong as well, and the hand-worked days show it.
#[test]
fn hand_worked_days_find_leaks_too() {
    let cases = days::all();
    for &mutant in DAY_MUTANTS {
        assert!(cases.iter().any(|case| differs(mutant, &case.file)), "{mutant:?}");
    }
}

/// Jobs run on the plain file's machine; which half failed, what a caught fault gives back,
/// and what hangs on one word of a table is seen in days as well.
#[test]
fn hand_worked_days_find_every_wrong_half_clearance_and_word() {
    let cases = days::all();
    let at = |mutant| MUTANTS.iter().position(|&one| one == mutant).expect("a mutant of the list");
    let halves = &MUTANTS[at(Mutant::HalvesSwapped)..=at(Mutant::SealedSilent)];
    let clearances = &MUTANTS[at(Mutant::TryLabel)..=at(Mutant::UncaughtBody)];
    let words = &MUTANTS[at(Mutant::Word0Unlooked)..=at(Mutant::OldRecordsApart)];
    for &mutant in [halves, clearances, words].concat().iter() {
        let told = |case: &days::DayCase| {
            let labels = Day::parse(&case.file).map_or(0, |day| day.parts.labels().len());
            (0..labels).any(|reader| {
                views(&Wrong::new(mutant), &case.file, reader) != views(&Paper, &case.file, reader)
            })
        };
        assert!(cases.iter().any(told), "{mutant:?} passes for the original");
    }
}

#[test]
fn pairs_by_hand_tell_their_mutants_and_clear_the_original() {
    for (at, (mutants, pair)) in day_by_hand::pairs().iter().enumerate() {
        assert_ne!(pair.file, pair.other);
        let views = [&pair.file, &pair.other].map(|file| read(&Paper, file, pair.reader, MAX_DAY));
        assert!(views[0].0.is_ok(), "pair {at}");
        assert_eq!(views[0], views[1], "pair {at}");
        for &mutant in *mutants {
            assert!(tells(mutant, pair), "pair {at} does not tell {mutant:?}");
        }
    }
}

/// Mutants by which other callers' jobs have a part in a caller's admission.
const MEDDLING: &[DayMutant] = &[
    DayMutant::OneForAll,
    DayMutant::LimitsPooled,
    DayMutant::LimitDivided,
    DayMutant::EightApart,
    DayMutant::FirstAndLast,
    DayMutant::Neighbours,
    DayMutant::NextCharged,
    DayMutant::Borrowed,
    DayMutant::Refilled,
    DayMutant::SkipEndsDay,
    DayMutant::FaultEndsDay,
    DayMutant::SpentEndsDay,
];

/// By the papers these days admit a caller's jobs alike, which the generator's tests
/// look at; here that is seen to tell mutants.
#[test]
fn other_callers_jobs_tell_mutants_that_heed_them() {
    let told = |mutant: DayMutant, seed: u64| {
        let mut random = Random::new(seed);
        let day = generator::days::day(&mut random);
        let caller = day.jobs[random.below(day.jobs.len())].caller;
        let [before, after] = [day.clone(), changed(&mut random, &day, caller)]
            .map(|day| admissions(&WrongDay::new(mutant), &day, caller));
        before != after
    };
    for &mutant in MEDDLING {
        assert!((0..4_000).any(|seed| told(mutant, seed)), "{mutant:?} passes for the original");
    }
}

#[test]
fn the_loader_answers_as_the_reference_does() {
    let right = |file: &[u8]| Day::parse(file).err().map(|refusal| refusal.number());
    for case in days::all() {
        assert_eq!(PAPER.refusal(&case.file), right(&case.file), "{}", case.name);
    }
    for seed in 0..5_000 {
        let file = generator::days::any(seed);
        assert_eq!(PAPER.refusal(&file), right(&file), "seed {seed}");
    }
}

#[test]
fn hand_worked_days_find_every_wrong_loader() {
    let cases = days::all();
    for wrong in wrong_day_loaders::all() {
        let told = |case: &days::DayCase| wrong.loader.refusal(&case.file) != PAPER.refusal(&case.file);
        assert!(cases.iter().any(told), "check {}: {}", wrong.check, wrong.says);
    }
}
