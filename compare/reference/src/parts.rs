//! What plain files and days have in common: labels, input records, code, and
//! scripts with what they are given to run.

use crate::label::Label;
use crate::limits::{input, CODE_BYTES, LABELS, MAX_LABELS, MAX_PLACES, MAX_RECORDS};
use crate::rules::Rules;
use crate::table::formula_by;
use crate::value::{Content, Kind, Record, Value};
use std::ops::RangeInclusive;

/// Why nothing was run or shown.
#[derive(Clone, Copy, Debug, PartialEq, Eq)]
pub enum Refusal {
    Size = 1,
    Count = 2,
    Layout = 3,
    Labels = 4,
    /// For plain files only.
    Start = 5,
    Records = 6,
    Code = 7,
    Reader = 8,
    Buffer = 9,
    /// For days only, and tried where plain files have `Start`.
    Jobs = 10,
    /// For quotes only, behind `Code`.
    Ahead = 11,
}

impl Refusal {
    pub fn number(self) -> u8 {
        self as u8
    }
}

/// A script and what it is given: the only one of a plain file, or a day's job.
#[derive(Clone, Copy, Debug)]
pub struct Job<'a> {
    /// Whose job it is. Nothing hangs on that of a plain file, which is 0.
    pub caller: u8,
    pub label: Label,
    pub clearance: Label,
    pub steps: u16,
    pub places: u16,
    /// What targets count in.
    pub code: &'a [u8],
    /// Where in it the first instruction is.
    pub start: usize,
}

/// How many steps a script may be given.
pub fn steps_hold(steps: u16) -> bool {
    steps > 0
}

/// How many places a script may be given that finds so many input records.
pub fn places(records: usize) -> RangeInclusive<usize> {
    records..=MAX_PLACES
}

/// The 16-bit number at `at`, which the caller knows to be there.
pub fn short(bytes: &[u8], at: usize) -> u16 {
    u16::from_le_bytes([bytes[at], bytes[at + 1]])
}

/// What every header says of the sections.
#[derive(Clone, Copy, Debug)]
pub struct Sections {
    pub header_length: usize,
    pub label_count: usize,
    pub labels_at: usize,
    pub record_count: usize,
    pub records_at: usize,
    pub code_length: usize,
    pub code_at: usize,
}

impl Sections {
    /// Check 2 for the counts that every header has.
    pub fn counts_hold(&self) -> bool {
        LABELS.contains(&self.label_count)
            && self.record_count <= MAX_RECORDS
            && CODE_BYTES.contains(&self.code_length)
    }

    /// Check 3, but for what stands between records and code, which takes
    /// `between` bytes.
    pub fn layout_holds(&self, between: usize, file_length: usize) -> bool {
        self.labels_at == self.header_length
            && self.records_at >= self.header_length
            && self.code_at == self.records_end() + between
            && file_length == self.code_at + self.code_length
    }

    pub fn records_end(&self) -> usize {
        self.records_at + input::LENGTH * self.record_count
    }

    /// Check 4, after check 3.
    pub fn parts<'a, R: Rules>(&self, rules: &R, bytes: &'a [u8]) -> Result<Parts<'a>, Refusal> {
        let labels = &bytes[self.header_length..self.records_at];
        Ok(Parts {
            labels: parse_labels(rules, labels, self.label_count).ok_or(Refusal::Labels)?,
            label_count: self.label_count,
            records: &bytes[self.records_at..self.records_end()],
            code: &bytes[self.code_at..],
        })
    }
}

/// The sections of a file whose header and labels are in order.
#[derive(Clone, Debug)]
pub struct Parts<'a> {
    labels: [Label; MAX_LABELS],
    label_count: usize,
    records: &'a [u8],
    pub code: &'a [u8],
}

impl Parts<'_> {
    /// Check 6.
    pub fn check_records(&self) -> Result<(), Refusal> {
        let holds = self
            .records
            .chunks_exact(input::LENGTH)
            .all(|record| record[input::KIND] <= 1 && (record[input::LABEL] as usize) < self.label_count);
        holds.then_some(()).ok_or(Refusal::Records)
    }

    pub fn labels(&self) -> &[Label] {
        &self.labels[..self.label_count]
    }

    pub fn record_count(&self) -> usize {
        self.records.len() / input::LENGTH
    }

    /// The input records, in the order of their places.
    pub fn records(&self) -> impl Iterator<Item = Record> + '_ {
        self.records.chunks_exact(input::LENGTH).map(|record| {
            let number = *record[input::NUMBER..].first_chunk().expect("a number has four bytes");
            Record {
                kind: if record[input::KIND] == 0 { Kind::Sealed } else { Kind::Reference },
                label: self.labels[record[input::LABEL] as usize],
                content: Content::Value(Value::Number(u32::from_le_bytes(number))),
            }
        })
    }
}

/// Reads `count` label entries that fill `bytes` exactly.
fn parse_labels<R: Rules>(rules: &R, mut bytes: &[u8], count: usize) -> Option<[Label; MAX_LABELS]> {
    let formula = |masks| formula_by(|mask| rules.clause(mask), masks);
    let mut labels = [Label::PUBLIC; MAX_LABELS];
    for label in &mut labels[..count] {
        let (&[secrecy, integrity], rest) = bytes.split_first_chunk()?;
        let (secrecy, rest) = rest.split_at_checked(secrecy as usize)?;
        let (integrity, rest) = rest.split_at_checked(integrity as usize)?;
        *label = Label { secrecy: formula(secrecy)?, integrity: formula(integrity)? };
        bytes = rest;
    }
    bytes.is_empty().then_some(labels)
}
