//! Who the principals of a file are: the first six, as in files from before the last two
//! came, or all eight.

use crate::random::Random;
use reference::limits::PRINCIPALS;
use reference::script::Clauses;

#[derive(Clone, Copy, Debug, PartialEq, Eq)]
pub enum Parties {
    Six,
    Eight,
}

impl Parties {
    fn count(self) -> usize {
        match self {
            Parties::Six => 6,
            Parties::Eight => PRINCIPALS,
        }
    }

    /// The masks of all sets of principals, by rising number.
    pub fn masks(self) -> impl Iterator<Item = u8> {
        (0..1usize << self.count()).map(|mask| mask as u8)
    }

    /// The longest list of clauses: the masks of every half of the principals.
    pub fn longest_formula(self) -> Vec<u8> {
        self.masks().filter(|mask| mask.count_ones() as usize == self.count() / 2).collect()
    }

    /// Gives the parts of the first four principals, who have the most to say in generated
    /// labels, to the last two as often as not.
    pub fn recast(self, random: &mut Random, labels: &mut [Clauses]) {
        if self == Parties::Six || random.chance(40) {
            return;
        }
        let mut cast: [u8; PRINCIPALS] = std::array::from_fn(|principal| principal as u8);
        for principal in self.count() - 2..self.count() {
            cast.swap(random.below(4), principal);
        }
        for masks in labels.iter_mut().flat_map(|label| [&mut label.secrecy, &mut label.integrity]) {
            masks.iter_mut().for_each(|mask| *mask = recast_mask(*mask, &cast));
            masks.sort_unstable();
        }
    }
}

/// The mask of those who have the parts of the members of `mask`.
fn recast_mask(mask: u8, cast: &[u8]) -> u8 {
    (0..).zip(cast).filter(|(part, _)| mask >> part & 1 == 1).map(|(_, principal)| 1u8 << principal).sum()
}
