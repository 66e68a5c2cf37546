//! Check 2: every count of the header at, below and above its limits.

use crate::Answer::{self, Loaded, Refused};
use crate::{case, patched, plain, plain_but, set_records, Case};
use reference::limits::header;
use reference::opcode::END;
use reference::script::Clauses;

pub fn cases() -> Vec<Case> {
    [labels(), records(), code(), steps(), places(), high_bytes()].concat()
}

fn labels() -> Vec<Case> {
    let labels = |count: usize| {
        let file = plain_but(|script| script.labels = vec![Clauses::default(); count]);
        case(format!("{count} labels"), Answer::unless((2..=32).contains(&count), 2), file)
    };
    [0, 1, 2, 3, 31, 32, 33].map(labels).to_vec()
}

fn records() -> Vec<Case> {
    let records = |count: usize| {
        let file = plain_but(|script| set_records(script, count));
        case(format!("{count} records"), Answer::unless(count <= 64, 2), file)
    };
    [0, 1, 2, 64, 65].map(records).to_vec()
}

fn code() -> Vec<Case> {
    let code = |length: usize| {
        let file = plain_but(|script| script.code = vec![END; length]);
        case(format!("{length} code bytes"), Answer::unless((1..=4096).contains(&length), 2), file)
    };
    [0, 1, 2, 4095, 4096, 4097].map(code).to_vec()
}

fn steps() -> Vec<Case> {
    let steps = |steps: u16| {
        let file = plain_but(|script| script.steps = steps);
        case(format!("{steps} steps"), Answer::unless(steps > 0, 2), file)
    };
    [0, 1, 2, 255, 256, 65_534, 65_535].map(steps).to_vec()
}

fn places() -> Vec<Case> {
    let places = |(places, records): (u16, u16)| {
        let file = plain_but(|script| {
            set_records(script, records.into());
            script.places = places;
        });
        let demanded = Answer::unless((records..=256).contains(&places), 2);
        case(format!("{places} places and {records} records"), demanded, file)
    };
    let none = [0, 1, 255, 256, 257, 512, 65_535].map(|count| (count, 0));
    let some = [(0, 1), (1, 1), (2, 1), (2, 3), (3, 3), (4, 3), (256, 3), (257, 3), (64, 64)];
    none.into_iter().chain(some).map(places).collect()
}

/// Counts that are within their limits if one of their two bytes is not read.
fn high_bytes() -> Vec<Case> {
    let patch = |name: &str, demanded, patches: &[(usize, usize)]| {
        case(name, demanded, patched(plain().bytes(), patches))
    };
    vec![
        patch("258 labels", Refused(2), &[(header::LABEL_COUNT, 258)]),
        patch("512 labels", Refused(2), &[(header::LABEL_COUNT, 512)]),
        patch("65535 labels", Refused(2), &[(header::LABEL_COUNT, 65_535)]),
        patch("256 records", Refused(2), &[(header::RECORD_COUNT, 256), (header::PLACES, 256)]),
        patch("65535 records", Refused(2), &[(header::RECORD_COUNT, 65_535), (header::PLACES, 256)]),
        patch("8193 code bytes", Refused(2), &[(header::CODE_LENGTH, 8193)]),
        patch("65535 code bytes", Refused(2), &[(header::CODE_LENGTH, 65_535)]),
        case("256 code bytes", Loaded, plain_but(|script| script.code = vec![END; 256])),
    ]
}
