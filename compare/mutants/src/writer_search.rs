//! Looks for a file, or a day, that tells a wrong writer from the paper's.

use crate::wrong_writers::WrongWriter;
use reference::print;

/// Whether a line of the file is another than by the paper's rules.
pub fn differs(wrong: &WrongWriter, file: &[u8]) -> bool {
    print::lines_by(&wrong.writer, file) != print::lines(file)
}

/// The same for a day.
pub fn differs_on_day(wrong: &WrongWriter, file: &[u8]) -> bool {
    print::day_lines_by(&wrong.writer, file) != print::day_lines(file)
}

/// How many of the generator's files it takes to find the wrong writer out, if `most`
/// are enough.
pub fn files_needed(wrong: &WrongWriter, most: u64) -> Option<u64> {
    (0..most).find(|&seed| differs(wrong, &generator::valid(seed))).map(|seed| seed + 1)
}
