//! A file again, with too few steps or places at every point of its run.

use reference::file::File;
use reference::limits::header;
use reference::machine;
use reference::rules::Paper;

/// No more variants than these, of each kind, so that a long run stays bounded.
const MOST: u16 = 200;

/// The valid `file` with every count of steps up to those it uses, and every
/// count of places from its records' to those it takes.
pub fn variants(file: &[u8]) -> Vec<Vec<u8>> {
    let Ok(parsed) = File::parse(file) else { return Vec::new() };
    let finished = machine::run(&parsed, &Paper);
    let with = |at: usize, number: u16| {
        let mut variant = file.to_vec();
        variant[at..at + 2].copy_from_slice(&number.to_le_bytes());
        variant
    };
    let first = parsed.parts.record_count() as u16;
    let steps = (1..=finished.steps_used.min(MOST)).map(|steps| with(header::STEPS, steps));
    let places = (first..=finished.next_place.min(first + MOST)).map(|places| with(header::PLACES, places));
    steps.chain(places).collect()
}
