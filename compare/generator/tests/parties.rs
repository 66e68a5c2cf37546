//! Who the principals of generated files are.

use generator::parties::Parties;
use generator::parts::{flows, labels};
use generator::random::Random;
use reference::script::Clauses;
use reference::table::{formula, Table};

const SEEDS: u64 = 2_000;

fn masks(labels: &[Clauses]) -> impl Iterator<Item = u8> + '_ {
    labels.iter().flat_map(|label| label.secrecy.iter().chain(&label.integrity).copied())
}

/// Other principals in the same parts: which label flows to which stays.
#[test]
fn labels_keep_their_order_when_they_are_recast() {
    let mut recast = 0;
    for seed in 0..SEEDS {
        let mut random = Random::new(seed);
        let old = labels(&mut random, Parties::Six);
        let mut new = old.clone();
        Parties::Eight.recast(&mut random, &mut new);
        recast += u64::from(new != old);
        for (one, new_one) in old.iter().zip(&new) {
            for (other, new_other) in old.iter().zip(&new) {
                assert_eq!(flows(one, other), flows(new_one, new_other), "seed {seed}");
            }
        }
    }
    assert!((SEEDS / 3..SEEDS).contains(&recast), "{recast}");
}

#[test]
fn old_labels_have_no_new_principal() {
    for seed in 0..SEEDS {
        let labels = labels(&mut Random::new(seed), Parties::Six);
        assert!(masks(&labels).all(|mask| mask < 64), "seed {seed}");
        let longest = labels.iter().map(|label| label.secrecy.len().max(label.integrity.len())).max();
        assert!(longest <= Some(20), "seed {seed}");
    }
}

/// Labels of the last two and of both are as frequent as any.
#[test]
fn new_labels_have_both() {
    let with = |mask: u8| {
        let has = |seed| masks(&labels(&mut Random::new(seed), Parties::Eight)).any(|one| one == mask);
        (0..SEEDS).filter(|&seed| has(seed)).count()
    };
    for mask in [64, 128, 192] {
        let count = with(mask);
        assert!(count > SEEDS as usize / 50, "mask {mask}: {count}");
    }
}

/// The list of clauses of a table that can arise: what is not in a set that the formula fails
/// for, and that cannot be larger.
fn list(table: Table) -> Vec<u8> {
    let largest = |set: usize| {
        (0..8).all(|principal| set >> principal & 1 == 1 || table.holds_for(set | 1 << principal))
    };
    let failing = (0..256).filter(|&set| !table.holds_for(set) && largest(set));
    let mut masks: Vec<u8> = failing.map(|set| !(set as u8)).collect();
    masks.sort_unstable();
    masks
}

/// Every table that can arise has one list, in files and by join and meet.
#[test]
fn a_table_has_one_list() {
    let table = |masks: &[u8]| formula(masks).expect("a well-formed list");
    for seed in 0..SEEDS {
        let labels = labels(&mut Random::new(seed), Parties::Eight);
        let lists: Vec<&Vec<u8>> =
            labels.iter().flat_map(|label| [&label.secrecy, &label.integrity]).collect();
        for one in &lists {
            assert_eq!(list(table(one)), **one, "seed {seed}");
            let other = table(lists[0]);
            for made in [table(one) & other, table(one) | other] {
                assert_eq!(table(&list(made)), made, "seed {seed}");
            }
        }
    }
}
