//! The quote: the most that a path through a script's code costs. As every target
//! lies ahead, one pass from the back knows what is left of a path at each start.

use crate::file::File;
use crate::opcode::*;
use crate::parts::{short, Refusal};
use crate::rules::Paper;
use std::fmt;

/// The largest steps and the largest places along any path, each by itself: the two
/// may be of different paths.
#[derive(Clone, Copy, Debug, Default, PartialEq, Eq)]
pub struct Quote {
    pub steps: u32,
    pub places: u32,
}

impl Quote {
    /// What both cost, one behind the other.
    fn and(self, rest: Quote) -> Quote {
        Quote { steps: self.steps + rest.steps, places: self.places + rest.places }
    }

    /// The most that one of the two costs.
    fn or(self, other: Quote) -> Quote {
        Quote { steps: self.steps.max(other.steps), places: self.places.max(other.places) }
    }
}

impl fmt::Display for Quote {
    fn fmt(&self, f: &mut fmt::Formatter) -> fmt::Result {
        write!(f, "steps {} places {}", self.steps, self.places)
    }
}

/// Checks 1 to 7 and 11, and the quote of the file's code.
pub fn of_file(bytes: &[u8]) -> Result<Quote, Refusal> {
    let (file, starts) = File::parse_with_starts(&Paper, bytes)?;
    let code = file.parts.code;
    // By start, the quote of the paths from there on.
    let mut from = vec![Quote::default(); code.len()];
    for at in starts.from_the_back() {
        if !looks_ahead(code, at) {
            return Err(Refusal::Ahead);
        }
        from[at] = cost(&code[at..]).and(rest(code, at, &from));
    }
    Ok(from[0])
}

/// Check 11 for one instruction. Whether a path comes to it does not matter.
fn looks_ahead(code: &[u8], at: usize) -> bool {
    match code[at] {
        TRY => false,
        JUMP | IFZ | BLOCK => target(code, at) > at,
        _ => true,
    }
}

/// What an instruction costs, done or not. A block pays all that it lends its body.
fn cost(instruction: &[u8]) -> Quote {
    match instruction[0] {
        SEAL | NEW => Quote { steps: 1, places: 1 },
        BLOCK => Quote { steps: 1 + u32::from(short(instruction, 3)), places: u32::from(instruction[5]) + 1 },
        _ => Quote { steps: 1, places: 0 },
    }
}

/// What is left of the paths behind the instruction at `at`.
fn rest(code: &[u8], at: usize, from: &[Quote]) -> Quote {
    // Check 7 has seen that there is one wherever a path goes on with it.
    let next = at + SHAPES[code[at] as usize].length;
    match code[at] {
        END | THROW => Quote::default(),
        JUMP => from[target(code, at)],
        IFZ => from[target(code, at)].or(from[next]),
        _ => from[next],
    }
}
