//! The files that the loader is tried with, checks 1 to 7: at and just past
//! every limit, for every reason to refuse, and for two reasons at once. They
//! are the same every time.

pub mod accepted;
pub mod code;
pub mod counts;
pub mod labels;
pub mod layout;
pub mod records;
pub mod several;
pub mod sizes;
pub mod start;

use reference::file::File;
use reference::opcode::END;
use reference::script::{Clauses, Input, Script};
use std::collections::HashSet;
use std::fmt;

/// What the loader says to a file.
#[derive(Clone, Copy, Debug, PartialEq, Eq, PartialOrd, Ord)]
pub enum Answer {
    Loaded,
    Refused(u8),
}

impl Answer {
    /// `Refused(refusal)` unless `holds`.
    fn unless(holds: bool, refusal: u8) -> Answer {
        if holds {
            Answer::Loaded
        } else {
            Answer::Refused(refusal)
        }
    }
}

impl From<Option<u8>> for Answer {
    fn from(refusal: Option<u8>) -> Answer {
        refusal.map_or(Answer::Loaded, Answer::Refused)
    }
}

impl fmt::Display for Answer {
    fn fmt(&self, f: &mut fmt::Formatter) -> fmt::Result {
        match self {
            Answer::Loaded => write!(f, "loaded"),
            Answer::Refused(number) => write!(f, "refused {number}"),
        }
    }
}

#[derive(Clone, Debug)]
pub struct Case {
    /// What is tried.
    pub name: String,
    /// What the paper demands, said without asking the reference.
    pub demanded: Answer,
    pub file: Vec<u8>,
}

fn case(name: impl Into<String>, demanded: Answer, file: Vec<u8>) -> Case {
    Case { name: name.into(), demanded, file }
}

/// Every case there is, by rising check; of equal files the first alone.
pub fn cases() -> Vec<Case> {
    let mut cases = [
        sizes::cases(),
        counts::cases(),
        layout::cases(),
        labels::cases(),
        start::cases(),
        records::cases(),
        code::cases(),
        several::cases(),
        accepted::cases(),
    ]
    .concat();
    let mut seen = HashSet::new();
    cases.retain(|case| seen.insert(case.file.clone()));
    cases
}

/// What the reference says to `file`.
pub fn answer(file: &[u8]) -> Answer {
    File::parse(file).err().map(|refusal| refusal.number()).into()
}

/// A line for each case: how many zero bytes the file ends with, its other bytes
/// in hexadecimal, the name.
pub fn input(cases: &[Case]) -> String {
    cases.iter().map(|case| input_line(&case.file, &case.name)).collect()
}

fn input_line(file: &[u8], name: &str) -> String {
    let front = file.iter().rposition(|&byte| byte != 0).map_or(0, |last| last + 1);
    let hex: String = file[..front].iter().map(|byte| format!("{byte:02x}")).collect();
    format!("{} {hex} {name}\n", file.len() - front)
}

/// What has to be printed for the cases: a line for each, the reference's answer
/// and the name.
pub fn output(cases: &[Case]) -> String {
    cases.iter().map(|case| format!("{}: {}\n", answer(&case.file), case.name)).collect()
}

/// The smallest file that loads, but for its second label: ⟨player, True⟩.
fn plain() -> Script {
    Script {
        labels: vec![Clauses::default(), Clauses::new(&[1], &[])],
        records: vec![],
        code: vec![END],
        steps: 10,
        places: 0,
    }
}

/// The plain script's file, with some parts changed.
fn plain_but(change: impl FnOnce(&mut Script)) -> Vec<u8> {
    let mut script = plain();
    change(&mut script);
    script.bytes()
}

/// Gives `script` so many records and as many places.
fn set_records(script: &mut Script, count: usize) {
    script.records = vec![Input::sealed(0, 7); count];
    script.places = count as u16;
}

/// `file` with some 16-bit numbers overwritten.
fn patched(mut file: Vec<u8>, patches: &[(usize, usize)]) -> Vec<u8> {
    for &(at, number) in patches {
        file[at..at + 2].copy_from_slice(&(number as u16).to_le_bytes());
    }
    file
}
