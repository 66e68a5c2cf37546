//! Pairs for demand 3: files that differ only in numbers hidden from a reader.

use crate::random::Random;
use crate::{invalid, parts};
use reference::file::File;
use reference::limits::{header, input};
use reference::parts::{short, Parts};

/// Where the numbers start that are hidden from the label with index `reader`.
/// Where refusal 1 to 4, 6 or 8 applies, no number is hidden.
pub fn hidden_numbers(bytes: &[u8], reader: usize) -> Vec<usize> {
    let Ok(file) = File::parse_parts(bytes) else { return Vec::new() };
    hidden_in(&file.parts, short(bytes, header::RECORDS_AT).into(), reader)
}

/// [`hidden_numbers`] of the records at `records_at`, in a file of either kind.
pub fn hidden_in(parts: &Parts, records_at: usize, reader: usize) -> Vec<usize> {
    if parts.check_records().is_err() {
        return Vec::new();
    }
    let Some(&reader) = parts.labels().get(reader) else { return Vec::new() };
    let first = records_at + input::NUMBER;
    (0..)
        .zip(parts.records())
        .filter(|(_, record)| !record.label.flows_to(reader))
        .map(|(index, _): (usize, _)| first + input::LENGTH * index)
        .collect()
}

/// Another file that is alike for `reader`, or `None` if nothing is hidden.
pub fn other(random: &mut Random, file: &[u8], reader: usize) -> Option<Vec<u8>> {
    change_some(random, file, &hidden_numbers(file, reader))
}

/// The file with some of the numbers at `hidden` changed, or `None` if there are
/// none.
pub fn change_some(random: &mut Random, file: &[u8], hidden: &[usize]) -> Option<Vec<u8>> {
    if hidden.is_empty() {
        return None;
    }
    let mut other = file.to_vec();
    let change = |random: &mut Random, other: &mut [u8], at: usize| {
        let number = &mut other[at..at + 4];
        if number == [0; 4] {
            number.copy_from_slice(&parts::number(random).max(1).to_le_bytes());
        } else {
            let new = if random.chance(60) { 0 } else { parts::number(random) };
            number.copy_from_slice(&new.to_le_bytes());
        }
    };
    for &at in hidden {
        if random.chance(50) {
            change(random, &mut other, at);
        }
    }
    if other == file {
        let at = random.pick(hidden);
        other[at] ^= 1;
    }
    Some(other)
}

/// A file and, for a reader that something is hidden from, one that is alike.
#[derive(Clone, Debug)]
pub struct Pair {
    pub file: Vec<u8>,
    pub other: Vec<u8>,
    pub reader: usize,
}

/// The pair of a seed. A seed whose file hides nothing stands for a later one.
pub fn pair(seed: u64) -> Pair {
    let mut random = Random::new(seed);
    loop {
        let file = file(&mut random);
        let readers = usize::from(file[header::LABEL_COUNT]);
        let first = random.below(readers);
        for shift in 0..readers {
            let reader = (first + shift) % readers;
            if let Some(other) = other(&mut random, &file, reader) {
                return Pair { file, other, reader };
            }
        }
    }
}

/// Mostly a valid file. Numbers are hidden in files that refusals 5 and 7 stop
/// too, and there it is the refusal that must not tell.
fn file(random: &mut Random) -> Vec<u8> {
    if random.chance(3) {
        let refusal = random.pick(&[5, 7]);
        return invalid::file(random, refusal);
    }
    crate::script(random).bytes()
}
