//! Files to try an implementation with, each fixed by its seed.
//!
//! Flat random bytes are refused almost always, and flat random code faults at
//! once. So scripts are put together from statements that mostly work, around
//! what can go wrong: opening hidden records inside blocks, branching on them,
//! and then doing something that others might notice.

pub mod admission;
pub mod alike;
pub mod cap;
pub mod clearances;
pub mod coverage;
pub mod day_alike;
pub mod day_coverage;
pub mod day_invalid;
mod day_statements;
pub mod days;
pub mod exhaust;
pub mod forward;
mod forward_code;
pub mod halves;
pub mod invalid;
mod lowering;
pub mod near_miss;
pub mod old;
pub mod others;
pub mod parties;
pub mod parts;
pub mod paths;
mod probes;
pub mod quote_coverage;
pub mod random;
pub mod short;
pub mod spending;
mod statements;
mod strays;
pub mod words;
mod writer;

use parties::Parties;
use random::Random;
use reference::script::Script;

/// The valid file of a seed.
pub fn valid(seed: u64) -> Vec<u8> {
    script(&mut Random::new(seed)).bytes()
}

/// The file of a seed: mostly valid, at times to be refused, and at times with
/// a few bytes changed, so that either may be.
pub fn any(seed: u64) -> Vec<u8> {
    let mut random = Random::new(seed);
    match random.below(100) {
        0..=11 => {
            let refusal = random.within(1, 7) as u8;
            invalid::file(&mut random, refusal)
        }
        12..=17 => {
            let mut file = script(&mut random).bytes();
            for _ in 0..random.within(1, 3) {
                let at = random.below(file.len());
                file[at] = random.word() as u8;
            }
            file
        }
        _ => script(&mut random).bytes(),
    }
}

pub fn script(random: &mut Random) -> Script {
    script_of(random, Parties::Eight)
}

fn script_of(random: &mut Random, parties: Parties) -> Script {
    let labels = parts::labels(random, parties);
    let records = parts::records(random, labels.len());
    let (steps, places) = parts::allotment(random, records.len());
    let code = writer::code(random, &labels, &records, steps);
    Script { labels, records, code, steps, places }
}
