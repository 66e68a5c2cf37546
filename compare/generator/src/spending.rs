//! What runs use, to be compared with their quote.

use crate::parts;
use crate::random::Random;
use reference::file::File;
use reference::limits::{header, input, MAX_PLACES};
use reference::machine;
use reference::parts::short;
use reference::rules::Paper;
use reference::Quote;

/// The steps that the run of a valid file uses and the places that it takes.
pub fn used(file: &[u8]) -> Quote {
    let file = File::parse(file).expect("a valid file");
    let finished = machine::run(&file, &Paper);
    Quote {
        steps: finished.steps_used.into(),
        places: u32::from(finished.next_place) - file.parts.record_count() as u32,
    }
}

/// The valid `file` with other numbers in its input records, and once with all steps
/// and places that a file may have.
pub fn variants(random: &mut Random, file: &[u8]) -> Vec<Vec<u8>> {
    let mut variants = vec![file.to_vec()];
    for kind in 0..4 {
        let mut variant = file.to_vec();
        variant[header::STEPS..header::STEPS + 2].copy_from_slice(&u16::MAX.to_le_bytes());
        variant[header::PLACES..header::PLACES + 2].copy_from_slice(&(MAX_PLACES as u16).to_le_bytes());
        let (first, count) = (short(file, header::RECORDS_AT), short(file, header::RECORD_COUNT));
        for record in 0..usize::from(count) {
            let at = usize::from(first) + input::LENGTH * record + input::NUMBER;
            let number = match kind {
                0 => continue,
                1 => 0,
                2 => 1,
                _ => parts::number(random),
            };
            variant[at..at + 4].copy_from_slice(&number.to_le_bytes());
        }
        variants.push(variant);
    }
    variants
}
