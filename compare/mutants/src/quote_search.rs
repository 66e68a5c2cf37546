//! Looks for a file that tells a wrong quote from the paper's.

use crate::wrong_quotes::WrongQuote;
use generator::forward;
use reference::quote;

/// Whether the file gets another answer than by the paper's rules.
pub fn differs(wrong: &WrongQuote, file: &[u8]) -> bool {
    wrong.quoter.quote(file) != quote(file)
}

/// How many of the generator's files it takes to find the wrong quote out, if `most`
/// are enough.
pub fn files_needed(wrong: &WrongQuote, most: u64) -> Option<u64> {
    (0..most).find(|&seed| differs(wrong, &forward::any(seed))).map(|seed| seed + 1)
}
