//! The printed form: one line per label, that label reading; of a day, as many
//! lines per label as it has jobs. A quote is one line.

use crate::day::Day;
use crate::day_rules::DayRules;
use crate::file::File;
use crate::limits::{shown, view, MAX_VIEW, TABLE};
use crate::parts::Refusal;
use crate::rules::{Paper, Rules};
use crate::{jobs, machine, quote, view as views};

/// Bytes of each field in the front of a view, in order.
const FRONT: [usize; 13] = [2, 2, 2, 2, 2, 2, 2, TABLE, TABLE, TABLE, TABLE, TABLE, TABLE];
/// Bytes of each field in a record of a view, in order.
const RECORD: [usize; 7] = [1, 1, TABLE, TABLE, 2, TABLE, TABLE];

/// A buffer of this length is long enough for the line of every view.
pub const MAX_LINE: usize = line_length(MAX_VIEW);

/// The lines for a file: a view for each of its labels, or the refusal.
pub fn lines(bytes: &[u8]) -> String {
    lines_by(&Paper, bytes)
}

/// [`lines`] by other rules than the paper's.
pub fn lines_by<R: Rules>(rules: &R, bytes: &[u8]) -> String {
    let file = match File::parse_by(rules, bytes) {
        Ok(file) => file,
        Err(refusal) => return refused(refusal),
    };
    let finished = machine::run(&file, rules);
    let mut text = String::new();
    for &reader in file.parts.labels() {
        push_view_by(rules, &mut text, &views::bytes(&finished, reader, rules));
    }
    text
}

/// The lines for a day: for each of its labels in turn the views of its jobs, or
/// the refusal.
pub fn day_lines(bytes: &[u8]) -> String {
    day_lines_by(&Paper, bytes)
}

/// [`day_lines`] by other rules than the paper's.
pub fn day_lines_by<R: DayRules>(rules: &R, bytes: &[u8]) -> String {
    let day = match Day::parse_by(rules, bytes) {
        Ok(day) => day,
        Err(refusal) => return refused(refusal),
    };
    let outcomes = jobs::run(&day, rules);
    let mut text = String::new();
    for &reader in day.parts.labels() {
        let views = jobs::views(&day, &outcomes, reader, rules);
        views.iter().for_each(|view| push_view_by(rules, &mut text, view));
    }
    text
}

/// The line for the quote of a file, or for the refusal.
pub fn quote_line(bytes: &[u8]) -> String {
    quote::of_file(bytes).map_or_else(refused, |quote| format!("{quote}\n"))
}

fn refused(refusal: Refusal) -> String {
    format!("refused {}\n", refusal.number())
}

/// The line for one view.
pub fn push_view(text: &mut String, view: &[u8]) {
    push_view_by(&Paper, text, view);
}

/// [`push_view`] by other rules than the paper's.
pub fn push_view_by<R: Rules>(rules: &R, text: &mut String, view: &[u8]) {
    put_view(rules, view, |character| text.push(character));
}

/// Writes the line for one view into the front of `buffer` and gives its length.
/// A buffer that is too short is left alone.
pub fn line(view: &[u8], buffer: &mut [u8]) -> Option<usize> {
    let line = buffer.get_mut(..line_length(view.len()))?;
    let mut rest = line.iter_mut();
    put_view(&Paper, view, |character| {
        *rest.next().expect("the buffer is as long as the line") = character as u8;
    });
    Some(line.len())
}

/// The length of the line for a view: two digits for each byte, and a space or the
/// line's end behind each field.
const fn line_length(view_length: usize) -> usize {
    let records = (view_length - view::RECORDS) / shown::LENGTH;
    2 * view_length + FRONT.len() + RECORD.len() * records
}

/// The characters of the line for one view, one by one.
fn put_view<R: Rules>(rules: &R, view: &[u8], mut put: impl FnMut(char)) {
    let (front, records) = view.split_at(view::RECORDS);
    put_fields(rules, front, &FRONT, &mut put);
    for record in records.chunks_exact(shown::LENGTH) {
        put(' ');
        put_fields(rules, record, &RECORD, &mut put);
    }
    put('\n');
}

/// Fields of `widths` bytes each; a space parts every two.
fn put_fields<R: Rules>(rules: &R, mut bytes: &[u8], widths: &[usize], put: &mut impl FnMut(char)) {
    for (at, &width) in widths.iter().enumerate() {
        let (field, rest) = bytes.split_at(width);
        if at > 0 {
            put(' ');
        }
        for (at, &byte) in field.iter().enumerate() {
            if rules.parts_field(at) {
                put(' ');
            }
            let [high, low] = rules.digits(byte);
            put(high);
            put(low);
        }
        bytes = rest;
    }
}
