//! Check 1: the file's length.

use crate::Answer::{Loaded, Refused};
use crate::{case, patched, plain, plain_but, Case};
use reference::limits::{header, MAX_CODE};
use reference::script::Code;

pub fn cases() -> Vec<Case> {
    [lengths(), zeros(), full_files()].concat()
}

/// One file, cut or followed by zeros.
fn lengths() -> Vec<Case> {
    let file = plain_but(|script| script.code = Code::new().push(5).end().bytes());
    let lengths = (0..=40).chain(65_534..=65_537);
    lengths
        .map(|length| {
            let demanded = match length {
                27 => Loaded,
                16..=65_535 => Refused(3),
                _ => Refused(1),
            };
            let mut file = file.clone();
            file.resize(length, 0);
            case(format!("length {length}"), demanded, file)
        })
        .collect()
}

fn zeros() -> Vec<Case> {
    vec![case("15 zeros", Refused(1), vec![0; 15]), case("16 zeros", Refused(2), vec![0; 16])]
}

/// Counts and offsets hold, and fill the file.
fn full_files() -> Vec<Case> {
    let full = |length: usize, demanded| {
        let mut file = plain().bytes();
        file.resize(length, 0);
        let code_at = length - MAX_CODE;
        let offsets =
            [(header::RECORDS_AT, code_at), (header::CODE_LENGTH, MAX_CODE), (header::CODE_AT, code_at)];
        case(format!("length {length} with right offsets"), demanded, patched(file, &offsets))
    };
    vec![full(65_535, Refused(4)), full(65_536, Refused(1))]
}
