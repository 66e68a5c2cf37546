//! An interpreter for the station's labelled script machine.
//!
//! It is written from the machine's papers alone and shares nothing with the
//! proved library, so that the two can be compared. [`read`], [`read_day`] and
//! [`quote()`] are the calls that matter; the rest is public for the programs next
//! door, which generate files, print views and try wrong rules.

pub mod batch;
pub mod day;
pub mod day_rules;
pub mod day_script;
pub mod file;
pub mod jobs;
pub mod label;
pub mod limits;
pub mod machine;
pub mod opcode;
pub mod parts;
pub mod print;
pub mod quote;
pub mod rules;
pub mod run;
pub mod script;
pub mod store;
pub mod table;
pub mod value;
pub mod view;

use day::Day;
use day_rules::DayRules;
use file::File;
use parts::Refusal;
pub use quote::Quote;
use rules::{Paper, Rules};

/// Runs the script in `file` and writes what the label with index `reader` may
/// see of it into the front of `buffer`. Gives the view's length, or the number,
/// 1 to 9, of the reason to refuse. On refusal the buffer is left alone, and
/// beyond the view's length always.
pub fn read(file: &[u8], reader: usize, buffer: &mut [u8]) -> Result<usize, u8> {
    read_by(&Paper, file, reader, buffer).map_err(Refusal::number)
}

/// [`read`] by other rules than the paper's.
pub fn read_by<R: Rules>(rules: &R, file: &[u8], reader: usize, buffer: &mut [u8]) -> Result<usize, Refusal> {
    let file = File::parse_by(rules, file)?;
    let &reader = file.parts.labels().get(reader).ok_or(Refusal::Reader)?;
    let finished = machine::run(&file, rules);
    view::write(&finished, reader, buffer, rules)
}

/// Runs the jobs of the day in `file` and writes what the label with index
/// `reader` may see of them into the front of `buffer`: one view for each job,
/// end to end. Gives the length of them all, or the number, 1 to 4 or 6 to 10,
/// of the reason to refuse. On refusal the buffer is left alone, and beyond the
/// views always.
pub fn read_day(file: &[u8], reader: usize, buffer: &mut [u8]) -> Result<usize, u8> {
    read_day_by(&Paper, file, reader, buffer).map_err(Refusal::number)
}

/// [`read_day`] by other rules than the paper's.
pub fn read_day_by<R: DayRules>(
    rules: &R,
    file: &[u8],
    reader: usize,
    buffer: &mut [u8],
) -> Result<usize, Refusal> {
    let day = Day::parse_by(rules, file)?;
    let &reader = day.parts.labels().get(reader).ok_or(Refusal::Reader)?;
    let outcomes = jobs::run(&day, rules);
    jobs::write(&jobs::views(&day, &outcomes, reader, rules), buffer, rules)
}

/// The most steps and the most places that a path through the code of the plain file
/// in `file` costs, whatever its numbers. Nothing is run. Gives the number, 1 to 7 or
/// 11, of the reason to refuse if there is one: 11 for a target that is not ahead of
/// its instruction, or a TRY, anywhere in the code.
pub fn quote(file: &[u8]) -> Result<Quote, u8> {
    quote::of_file(file).map_err(Refusal::number)
}
