//! Files that can be quoted: every target lies ahead, and there is no TRY. Most of
//! what they do works, so that their runs come far.

use crate::parties::Parties;
use crate::random::Random;
use crate::{days, forward_code, invalid, near_miss, parts};
use reference::limits::MAX_PLACES;
use reference::quote;
use reference::script::Script;

/// The quotable file of a seed.
pub fn valid(seed: u64) -> Vec<u8> {
    script(&mut Random::new(seed)).bytes()
}

/// The file of a seed: mostly quotable, or all but for one instruction, at times to be
/// refused by a check before 11, and at times of those that other calls are tried with.
pub fn any(seed: u64) -> Vec<u8> {
    let mut random = Random::new(seed);
    match random.below(100) {
        0..=59 => script(&mut random).bytes(),
        60..=77 => near_miss::script(&mut random).bytes(),
        78..=87 => broken(&mut random),
        88..=91 => changed(&mut random),
        92..=97 => crate::any(random.word()),
        _ => days::any(random.word()),
    }
}

pub fn script(random: &mut Random) -> Script {
    let labels = parts::labels(random, Parties::Eight);
    let records = parts::records(random, labels.len());
    let code = forward_code::code(random, labels.len(), &records);
    let mut script = Script { labels, code, steps: 1, places: records.len() as u16, records };
    allot(random, &mut script);
    script
}

/// A file that one of checks 1 to 7 refuses, and often 11 would as well.
fn broken(random: &mut Random) -> Vec<u8> {
    let script = if random.chance(50) { script(random) } else { near_miss::script(random) };
    let refusal = random.within(1, 7) as u8;
    invalid::broken(random, script, refusal)
}

/// A quotable file with a few bytes changed.
fn changed(random: &mut Random) -> Vec<u8> {
    let mut file = script(random).bytes();
    for _ in 0..random.within(1, 3) {
        let at = random.below(file.len());
        file[at] = random.word() as u8;
    }
    file
}

/// Gives steps and places: mostly enough for every path, often just so, or not quite.
fn allot(random: &mut Random, script: &mut Script) {
    let quote = quote(&script.bytes()).expect("every target lies ahead");
    let records = script.records.len();
    let steps = match random.below(10) {
        0 => random.within(1, 20),
        1 => (quote.steps as usize - 1).clamp(1, 65_535),
        2..=4 => (quote.steps as usize).min(65_535),
        _ => 65_535,
    };
    let free = match random.below(10) {
        0 => 0,
        1 => (quote.places as usize).saturating_sub(1),
        2..=4 => quote.places as usize,
        _ => MAX_PLACES,
    };
    script.steps = steps as u16;
    script.places = (records + free.min(MAX_PLACES - records)) as u16;
}
