//! The cap holds in every state that a generated file or day comes to.

use generator::cap::Cap;
use generator::{days, valid};
use reference::limits::{MAX_DAY, MAX_VIEW};
use reference::{read_by, read_day_by};

#[test]
fn of_files() {
    let (cap, mut buffer) = (Cap::default(), [0; MAX_VIEW]);
    for seed in 0..20_000 {
        read_by(&cap, &valid(seed), 0, &mut buffer).expect("a valid file");
    }
    assert!(cap.states.get() > 1_000_000, "{} states", cap.states.get());
    assert!(cap.lowered_frames.get() > 10_000, "{} lowered frames", cap.lowered_frames.get());
}

#[test]
fn of_days() {
    let (cap, mut buffer) = (Cap::default(), vec![0; MAX_DAY]);
    for seed in 0..10_000 {
        read_day_by(&cap, &days::valid(seed), 0, &mut buffer).expect("a valid day");
    }
    assert!(cap.states.get() > 500_000, "{} states", cap.states.get());
    assert!(cap.lowered_frames.get() > 5_000, "{} lowered frames", cap.lowered_frames.get());
}
