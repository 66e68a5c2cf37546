//! The generator keeps its promises.

use generator::alike::{hidden_numbers, pair};
use generator::coverage::Coverage;
use generator::random::Random;
use generator::{any, invalid, valid};
use reference::file::File;
use reference::limits::MAX_VIEW;
use reference::read;

const FILES: u64 = 20_000;

#[test]
fn valid_files_are_not_refused() {
    for seed in 0..FILES {
        assert_eq!(File::parse(&valid(seed)).err(), None, "seed {seed}");
    }
}

#[test]
fn invalid_files_are_refused_with_their_number() {
    for refusal in 1..=7 {
        for seed in 0..FILES / 10 {
            let file = invalid::file(&mut Random::new(seed), refusal);
            let found = File::parse(&file).err().map(|refusal| refusal.number());
            assert_eq!(found, Some(refusal), "seed {seed}");
        }
    }
}

#[test]
fn every_point_is_reached() {
    let coverage = Coverage::default();
    (0..FILES).for_each(|seed| coverage.add(&any(seed)));
    assert_eq!(coverage.missing(), []);
}

/// Demand 3 on the reference.
#[test]
fn alike_pairs_differ_and_have_one_view() {
    let (mut one, mut two) = ([0xEE; MAX_VIEW], [0xEE; MAX_VIEW]);
    for seed in 0..FILES {
        let pair = pair(seed);
        assert_ne!(pair.file, pair.other, "seed {seed}");
        let answers = (read(&pair.file, pair.reader, &mut one), read(&pair.other, pair.reader, &mut two));
        assert_eq!(answers.0, answers.1, "seed {seed}");
        assert!(one == two, "seed {seed}");
    }
}

#[test]
fn alike_files_differ_in_hidden_numbers_only() {
    for seed in 0..FILES / 10 {
        let mut pair = pair(seed);
        for at in hidden_numbers(&pair.file, pair.reader) {
            pair.file[at..at + 4].fill(0);
            pair.other[at..at + 4].fill(0);
        }
        assert_eq!(pair.file, pair.other, "seed {seed}");
    }
}
