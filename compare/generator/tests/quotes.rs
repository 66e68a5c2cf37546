//! The generator keeps its promises for files to be quoted; quotes are what the paths,
//! one by one, make them; and no run uses more.

use generator::quote_coverage::{Figure, Point, QuoteCoverage};
use generator::random::Random;
use generator::{forward, near_miss, paths, spending};
use reference::file::File;
use reference::{quote, Quote};

const FILES: u64 = 20_000;
const MOST_PATHS: usize = 2_000;

fn code(file: &[u8]) -> &[u8] {
    File::parse(file).expect("a valid file").parts.code
}

#[test]
fn forward_files_are_quoted() {
    for seed in 0..FILES {
        assert!(quote(&forward::valid(seed)).is_ok(), "seed {seed}");
    }
}

#[test]
fn near_misses_are_refused_with_11() {
    for seed in 0..FILES {
        let file = near_miss::script(&mut Random::new(seed)).bytes();
        assert_eq!(quote(&file), Err(11), "seed {seed}");
    }
}

#[test]
fn every_point_is_reached_and_no_run_uses_more() {
    let mut coverage = QuoteCoverage::default();
    (0..FILES).for_each(|seed| coverage.add(&forward::any(seed)));
    assert_eq!(coverage.missing(), []);
    assert_eq!(coverage.overruns, 0);
    for figure in [Figure::Steps, Figure::Places] {
        for point in [Point::Used, Point::UsedOfSeveral, Point::UsedWithBlock, Point::UsedLess] {
            let count = coverage.count(point(figure));
            assert!(count > 1_000, "{:?}: {count}", point(figure));
        }
    }
}

/// How often something about a file's paths makes its quote what it is.
#[derive(Default)]
struct Sample {
    listed: u64,
    dead_code: u64,
    jumping_is_not_enough: u64,
    falling_is_not_enough: u64,
    two_paths: u64,
}

impl Sample {
    fn add(&mut self, code: &[u8], found: Quote) {
        let Some(all) = paths::all(code, MOST_PATHS) else { return };
        self.listed += 1;
        let on_paths: std::collections::BTreeSet<usize> = all.concat().into_iter().collect();
        assert_eq!(on_paths, paths::reached(code));
        let whole = paths::cost(code, &paths::starts(code));
        self.dead_code += u64::from(on_paths.len() < paths::starts(code).len() && whole != found);
        let [jumping, falling] = [true, false].map(|jumps| paths::one_way(code, jumps));
        assert!(all.contains(&jumping) && all.contains(&falling));
        self.jumping_is_not_enough += u64::from(paths::cost(code, &jumping) != found);
        self.falling_is_not_enough += u64::from(paths::cost(code, &falling) != found);
        self.two_paths += u64::from(all.iter().all(|path| paths::cost(code, path) != found));
    }
}

#[test]
fn the_quote_is_the_most_of_all_paths() {
    let mut sample = Sample::default();
    for seed in 0..FILES {
        let file = forward::valid(seed);
        let (code, found) = (code(&file), quote(&file).expect("a quotable file"));
        if let Some(most) = paths::quote(code, MOST_PATHS) {
            assert_eq!(found, most, "seed {seed}");
        }
        sample.add(code, found);
    }
    let Sample { listed, dead_code, jumping_is_not_enough, falling_is_not_enough, two_paths } = sample;
    assert!(listed > FILES * 8 / 10, "{listed} of {FILES}");
    assert!(dead_code > 1_000, "{dead_code}");
    assert!(jumping_is_not_enough > 1_000, "{jumping_is_not_enough}");
    assert!(falling_is_not_enough > 1_000, "{falling_is_not_enough}");
    assert!(two_paths > 1_000, "{two_paths}");
}

/// With any numbers in the input records, and any allotment.
#[test]
fn no_run_uses_more_than_its_quote() {
    for seed in 0..FILES {
        let file = forward::valid(seed);
        let most = quote(&file).expect("a quotable file");
        for variant in spending::variants(&mut Random::new(!seed), &file) {
            let used = spending::used(&variant);
            assert_eq!(quote(&variant), Ok(most), "seed {seed}");
            assert!(used.steps <= most.steps && used.places <= most.places, "seed {seed}: {variant:02x?}");
        }
    }
}

#[test]
fn paths_are_not_listed_where_there_are_more() {
    // IFZ 3, IFZ 6, END: four paths.
    let code = [11, 3, 0, 11, 6, 0, 0];
    assert_eq!(paths::all(&code, 3), None);
    assert_eq!(paths::all(&code, 4), Some(vec![vec![0, 3, 6]; 4]));
    assert_eq!(paths::quote(&code, 4), Some(Quote { steps: 3, places: 0 }));
}
