//! The cap holds in all hand-worked files and days, and what follows from it.

use cases::days::{self, Expected as DayExpected};
use cases::Expected;
use generator::cap::Cap;
use mutants::search::differs;
use mutants::MOST_PAIRS;
use reference::label::Label;
use reference::limits::{MAX_DAY, MAX_VIEW};
use reference::rules::Rules;
use reference::run::{Frame, Run};
use reference::value::Fault;
use reference::{read_by, read_day_by};

#[test]
fn the_cap_holds_in_hand_worked_files() {
    let (cap, mut buffer) = (Cap::default(), [0; MAX_VIEW]);
    for case in cases::all().iter().filter(|case| matches!(case.expected, Expected::Ends(_))) {
        assert!(read_by(&cap, &case.file, 0, &mut buffer).is_ok(), "{}", case.name);
    }
    assert!(cap.lowered_frames.get() > 0);
}

#[test]
fn the_cap_holds_in_hand_worked_days() {
    let (cap, mut buffer) = (Cap::default(), vec![0; MAX_DAY]);
    for case in days::all().iter().filter(|case| matches!(case.expected, DayExpected::Jobs(_))) {
        assert!(read_day_by(&cap, &case.file, 0, &mut buffer).is_ok(), "{}", case.name);
    }
    assert!(cap.lowered_frames.get() > 0);
}

/// The join of the clearance at TRY and that of the throw is given back.
struct Joined;

impl Rules for Joined {
    fn given_back(&self, run: &Run, frame: Frame, _fault: Fault) -> Label {
        run.clearance.join(frame.clearance)
    }
}

/// The lowest clearance of all frames is given back, by a fold over them.
struct Lowest;

impl Rules for Lowest {
    fn given_back(&self, run: &Run, frame: Frame, _fault: Fault) -> Label {
        run.frames.open().iter().fold(frame.clearance, |lowest, older| lowest.meet(older.clearance))
    }
}

/// As a clearance is only lowered under a frame, or given back by one above it, that of
/// the throw flows to the newest frame's, and that to the older ones'.
#[test]
fn neither_the_join_nor_the_lowest_is_told_from_the_newest_frame_s() {
    let tells = |file: &[u8]| differs(&Joined, file) || differs(&Lowest, file);
    for case in cases::all() {
        assert!(!tells(&case.file), "{}", case.name);
    }
    for seed in 0..MOST_PAIRS {
        assert!(!tells(&generator::valid(seed)), "seed {seed}");
    }
}
