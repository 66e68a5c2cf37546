//! Pairs of days that differ only in numbers hidden from a reader.

use crate::alike::{change_some, hidden_in, Pair};
use crate::random::Random;
use crate::{day_invalid, days};
use reference::day::Day;
use reference::limits::day_header;
use reference::parts::short;

/// Where the numbers start that are hidden from the label with index `reader`.
/// Where refusal 1 to 4, 6 or 8 applies, no number is hidden.
pub fn hidden_numbers(bytes: &[u8], reader: usize) -> Vec<usize> {
    let Ok(day) = Day::parse_parts(bytes) else { return Vec::new() };
    hidden_in(&day.parts, short(bytes, day_header::RECORDS_AT).into(), reader)
}

/// The pair of a seed. A seed whose day hides nothing stands for a later one.
pub fn pair(seed: u64) -> Pair {
    let mut random = Random::new(seed);
    loop {
        let file = file(&mut random);
        let readers = usize::from(file[day_header::LABEL_COUNT]);
        let first = random.below(readers);
        for shift in 0..readers {
            let reader = (first + shift) % readers;
            if let Some(other) = change_some(&mut random, &file, &hidden_numbers(&file, reader)) {
                return Pair { file, other, reader };
            }
        }
    }
}

/// Mostly a valid day. Numbers are hidden in days that refusals 10 and 7 stop
/// too, and there it is the refusal that must not tell.
fn file(random: &mut Random) -> Vec<u8> {
    if random.chance(3) {
        let refusal = random.pick(&[10, 7]);
        return day_invalid::file(random, refusal);
    }
    days::day(random).bytes()
}
