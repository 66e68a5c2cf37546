//! The generator keeps its promises for days.

use generator::day_alike::{hidden_numbers, pair};
use generator::day_coverage::DayCoverage;
use generator::random::Random;
use generator::{day_invalid, days};
use reference::day::Day;
use reference::jobs::{self, Outcome};
use reference::limits::MAX_DAY;
use reference::read_day;
use reference::rules::Paper;
use reference::value::{Content, Value};

const DAYS: u64 = 10_000;

#[test]
fn valid_days_are_not_refused() {
    for seed in 0..DAYS {
        assert_eq!(Day::parse(&days::valid(seed)).err(), None, "seed {seed}");
    }
}

#[test]
fn invalid_days_are_refused_with_their_number() {
    for refusal in day_invalid::REFUSALS {
        for seed in 0..DAYS / 10 {
            let file = day_invalid::file(&mut Random::new(seed), refusal);
            let found = Day::parse(&file).err().map(|refusal| refusal.number());
            assert_eq!(found, Some(refusal), "seed {seed}");
        }
    }
}

#[test]
fn every_point_is_reached() {
    let coverage = DayCoverage::default();
    (0..DAYS / 2).for_each(|seed| coverage.add(&days::any(seed)));
    assert_eq!(coverage.missing(), []);
}

/// Demand 3 on the reference, over whole days.
#[test]
fn alike_pairs_differ_and_have_one_view() {
    let (mut one, mut two) = (vec![0xEE; MAX_DAY], vec![0xEE; MAX_DAY]);
    for seed in 0..DAYS {
        let pair = pair(seed);
        assert_ne!(pair.file, pair.other, "seed {seed}");
        let answers =
            (read_day(&pair.file, pair.reader, &mut one), read_day(&pair.other, pair.reader, &mut two));
        assert_eq!(answers.0, answers.1, "seed {seed}");
        assert!(one == two, "seed {seed}");
    }
}

#[test]
fn alike_days_differ_in_hidden_numbers_only() {
    for seed in 0..DAYS / 10 {
        let mut pair = pair(seed);
        for at in hidden_numbers(&pair.file, pair.reader) {
            pair.file[at..at + 4].fill(0);
            pair.other[at..at + 4].fill(0);
        }
        assert_eq!(pair.file, pair.other, "seed {seed}");
    }
}

/// So that it is the same whether handles are turned by their place alone, or only
/// those whose record stood there as the job ended.
#[test]
fn every_handle_leads_to_a_record_as_a_job_ends() {
    for seed in 0..DAYS {
        let file = days::valid(seed);
        let day = Day::parse(&file).expect("a valid day");
        for outcome in jobs::run(&day, &Paper) {
            let Outcome::Ran(finished) = outcome else { continue };
            for (_, record) in finished.store.iter() {
                let Content::Value(value) = record.content else { continue };
                let Some(place) = value.place() else { continue };
                let kind = finished.store.get(place).map(|record| record.kind);
                assert_eq!(kind.map(|kind| Value::handle(kind, place)), Some(value), "seed {seed}");
            }
        }
    }
}
