//! Files and days of the first six principals: masks up to 63, and at most 20 clauses in a
//! formula. With six principals they load, or are refused by another check than 4.

use crate::parties::Parties;
use crate::random::Random;
use crate::{days, invalid, script_of};

/// The file of a seed: mostly valid, at times to be refused.
pub fn file(seed: u64) -> Vec<u8> {
    let mut random = Random::new(seed);
    let script = script_of(&mut random, Parties::Six);
    if random.chance(5) {
        let refusal = random.pick(&[1, 2, 3, 5, 6, 7]);
        return invalid::broken(&mut random, script, refusal);
    }
    script.bytes()
}

/// The valid day of a seed.
pub fn day(seed: u64) -> Vec<u8> {
    days::day_of(&mut Random::new(seed), Parties::Six).bytes()
}
