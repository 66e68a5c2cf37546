//! Says for each mutant after how many generated pairs it is found out, and by how
//! many pairs, files or days written by hand; of wrong quotes and wrong writers, after how
//! many generated files. Fails if one is found by neither.

use cases::{days, quotes, writing};
use mutants::day_list::DAY_MUTANTS;
use mutants::list::{Harm, MUTANTS};
use mutants::wrong::Wrong;
use mutants::{by_hand, day_by_hand, day_search, quote_search, search, writer_search};
use mutants::{wrong_quotes, wrong_writers};
use mutants::{MOST_DAY_PAIRS, MOST_PAIRS, MOST_QUOTES, MOST_WRITTEN};
use std::process::ExitCode;

/// How many mutants there are, and how many of them were found out.
#[derive(Default)]
struct Tally {
    all: u32,
    by_chance: u32,
    unfound: u32,
}

impl Tally {
    /// One more mutant: what it is, and what finds it out.
    fn add(&mut self, harm: Harm, name: String, needed: Option<u64>, by_hand: usize, says: &str) {
        let harm = match harm {
            Harm::Leak => "leak",
            Harm::Wrong => "wrong",
        };
        self.all += 1;
        self.by_chance += u32::from(needed.is_some());
        self.unfound += u32::from(needed.is_none() && by_hand == 0);
        let needed = needed.map_or("not by chance".to_string(), |pairs| format!("after {pairs}"));
        println!("{harm:<5} {name:<20} {needed:<13} by hand {by_hand:>3}  {says}");
    }
}

fn main() -> ExitCode {
    let tallies = [
        ("mutants", plain_mutants()),
        ("mutants of days", day_mutants()),
        ("mutants of quotes", quote_mutants()),
        ("mutants of the writer", writer_mutants()),
    ];
    for (kind, tally) in &tallies {
        println!("{} {kind}, {} found by chance, {} not found", tally.all, tally.by_chance, tally.unfound);
    }
    let unfound: u32 = tallies.iter().map(|(_, tally)| tally.unfound).sum();
    if unfound == 0 {
        ExitCode::SUCCESS
    } else {
        eprintln!("mutants: {unfound} mutants pass for the original");
        ExitCode::FAILURE
    }
}

/// A leak is found out by alike pairs only; other mistakes by hand-worked files too.
fn plain_mutants() -> Tally {
    let (by_hand, cases) = (by_hand::pairs(), cases::all());
    let mut tally = Tally::default();
    for &mutant in MUTANTS {
        let needed = search::pairs_needed(mutant, MOST_PAIRS);
        let told = match mutant.harm() {
            Harm::Leak => by_hand.iter().filter(|(_, pair)| search::leaks(mutant, pair)).count(),
            Harm::Wrong => {
                cases.iter().filter(|case| search::differs(&Wrong::new(mutant), &case.file)).count()
            }
        };
        tally.add(mutant.harm(), format!("{mutant:?}"), needed, told, mutant.says());
    }
    tally
}

/// The same for days.
fn day_mutants() -> Tally {
    let (by_hand, cases) = (day_by_hand::pairs(), days::all());
    let mut tally = Tally::default();
    for &mutant in DAY_MUTANTS {
        let needed = day_search::pairs_needed(mutant, MOST_DAY_PAIRS);
        let told = match mutant.harm() {
            Harm::Leak => by_hand.iter().filter(|(_, pair)| day_search::leaks(mutant, pair)).count(),
            Harm::Wrong => cases.iter().filter(|case| day_search::differs(mutant, &case.file)).count(),
        };
        tally.add(mutant.harm(), format!("{mutant:?}"), needed, told, mutant.says());
    }
    tally
}

/// A quote tells of nothing but the code, so that none of these leaks.
fn quote_mutants() -> Tally {
    let cases = quotes::all();
    let mut tally = Tally::default();
    for wrong in wrong_quotes::all() {
        let needed = quote_search::files_needed(&wrong, MOST_QUOTES);
        let told = cases.iter().filter(|case| quote_search::differs(&wrong, &case.file)).count();
        tally.add(Harm::Wrong, wrong.name.into(), needed, told, wrong.says);
    }
    tally
}

/// A wrong writer is given the right view.
fn writer_mutants() -> Tally {
    let cases = [cases::all(), writing::cases()].concat();
    let mut tally = Tally::default();
    for wrong in wrong_writers::all() {
        let needed = writer_search::files_needed(&wrong, MOST_WRITTEN);
        let told = cases.iter().filter(|case| writer_search::differs(&wrong, &case.file)).count();
        tally.add(Harm::Wrong, wrong.name, needed, told, &wrong.says);
    }
    tally
}
