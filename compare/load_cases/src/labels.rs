//! Check 4: label entries malformed in each way, cut, or not ending at the
//! records.

use crate::Answer::{self, Loaded, Refused};
use crate::{case, patched, plain, plain_but, set_records, Case};
use cases::bounds::{seventy_clauses, twenty_clauses};
use reference::limits::header;
use reference::script::{Clauses, Script};

pub fn cases() -> Vec<Case> {
    [masks(), many_clauses(), positions(), sections(), cut_before_records()].concat()
}

/// A file of three labels, two public ones and this.
fn third_label(secrecy: &[u8], integrity: &[u8]) -> Vec<u8> {
    plain_but(|script| {
        script.labels = vec![Clauses::default(), Clauses::default(), Clauses::new(secrecy, integrity)]
    })
}

const WELL_FORMED: [&[u8]; 20] = [
    &[0],
    &[1],
    &[63],
    &[64],
    &[127],
    &[128],
    &[192],
    &[255],
    &[1, 2],
    &[3, 5],
    &[31, 32],
    &[3, 5, 6],
    &[6, 9],
    &[1, 62],
    &[7, 56],
    &[1, 64],
    &[63, 64],
    &[64, 128],
    &[127, 128],
    &[1, 2, 4, 8, 16, 32, 64, 128],
];

/// Each with what is wrong with it; a subset stands before or behind the mask that
/// it is a subset of.
const MALFORMED: [(&[u8], &str); 28] = [
    (&[1, 1], "equal"),
    (&[0, 0], "equal"),
    (&[63, 63], "equal"),
    (&[64, 64], "equal"),
    (&[255, 255], "equal"),
    (&[1, 2, 2], "equal"),
    (&[2, 1], "descending"),
    (&[5, 3], "descending"),
    (&[32, 31], "descending"),
    (&[64, 63], "descending"),
    (&[128, 64], "descending"),
    (&[1, 4, 2], "descending"),
    (&[1, 3], "subset before"),
    (&[3, 7], "subset before"),
    (&[4, 12], "subset before"),
    (&[0, 1], "subset before"),
    (&[0, 63], "subset before"),
    (&[62, 63], "subset before"),
    (&[64, 192], "subset before"),
    (&[128, 255], "subset before"),
    (&[0, 128], "subset before"),
    (&[1, 6, 9], "subset two before"),
    (&[1, 2, 3], "two subsets before"),
    (&[64, 129, 193], "two subsets before"),
    (&[3, 1], "subset behind"),
    (&[192, 128], "subset behind"),
    (&[1, 0], "subset behind"),
    (&[3, 12, 1], "subset two behind"),
];

fn masks() -> Vec<Case> {
    let listed = |masks: &[u8], demanded: Answer, why: &str| {
        let hex: Vec<String> = masks.iter().map(|mask| format!("{mask:02x}")).collect();
        let name = format!("masks {}{why}", hex.join(" "));
        [
            case(format!("secrecy {name}"), demanded, third_label(masks, &[])),
            case(format!("integrity {name}"), demanded, third_label(&[], masks)),
        ]
    };
    let well_formed = WELL_FORMED.into_iter().flat_map(|masks| listed(masks, Loaded, ""));
    let malformed =
        MALFORMED.into_iter().flat_map(|(masks, why)| listed(masks, Refused(4), &format!(", {why}")));
    well_formed.chain(malformed).collect()
}

fn many_clauses() -> Vec<Case> {
    let (twenty, seventy) = (twenty_clauses(), seventy_clauses());
    let twenty_one = [&twenty[..], &[64]].concat();
    let seventy_one = [&seventy[..], &[255]].concat();
    let every: Vec<u8> = (0..255).collect();
    vec![
        case("20 clauses", Loaded, third_label(&twenty, &[])),
        case("21 clauses", Loaded, third_label(&twenty_one, &[])),
        case("21 clauses of integrity", Loaded, third_label(&[], &twenty_one)),
        case("70 clauses", Loaded, third_label(&seventy, &[])),
        case("70 clauses of integrity", Loaded, third_label(&[], &seventy)),
        case("70 and 70 clauses", Loaded, third_label(&seventy, &seventy)),
        case("71 clauses", Refused(4), third_label(&seventy_one, &[])),
        case("71 clauses of integrity", Refused(4), third_label(&[], &seventy_one)),
        case("255 clauses", Refused(4), third_label(&every, &[])),
    ]
}

/// One malformed entry among well-formed ones.
fn positions() -> Vec<Case> {
    let at = |count: usize, at: usize| {
        let file = plain_but(|script| {
            script.labels.resize(count, Clauses::default());
            script.labels[at] = Clauses::new(&[64, 64], &[]);
        });
        case(format!("label {at} of {count} malformed"), Refused(4), file)
    };
    [(2, 0), (2, 1), (3, 1), (32, 0), (32, 31)].map(|(count, index)| at(count, index)).to_vec()
}

/// The plain script with these bytes for its labels.
fn with_section(script: &Script, labels: usize, section: &[u8]) -> Vec<u8> {
    let file = script.bytes();
    let field = |at: usize| usize::from(u16::from_le_bytes([file[at], file[at + 1]]));
    let records_at = field(header::RECORDS_AT);
    let new_records_at = header::LENGTH + section.len();
    let moved = [
        (header::LABEL_COUNT, labels),
        (header::RECORDS_AT, new_records_at),
        (header::CODE_AT, field(header::CODE_AT) - records_at + new_records_at),
    ];
    patched([&file[..header::LENGTH], section, &file[records_at..]].concat(), &moved)
}

/// Two entries cut at each byte, and entries that end before or behind the
/// records offset.
fn sections() -> Vec<Case> {
    let two = [0, 0, 2, 2, 1, 2, 4, 8];
    let cut = |length: usize| {
        // Whole, they are well formed, and a public start doesn't flow to the second.
        let demanded = Refused(if length == two.len() { 5 } else { 4 });
        case(format!("label section cut at {length}"), demanded, with_section(&plain(), 2, &two[..length]))
    };
    let mut cases: Vec<Case> = (0..=two.len()).map(cut).collect();
    let right = [0, 0, 1, 0, 1];
    let section = |name: &str, demanded, labels, section: &[u8]| {
        case(name, demanded, with_section(&plain(), labels, section))
    };
    cases.extend([
        section("label section right", Loaded, 2, &right),
        section("label section one byte long", Refused(4), 2, &[0, 0, 1, 0, 1, 0]),
        section("label section one entry long", Refused(4), 2, &[0, 0, 1, 0, 1, 0, 0]),
        section("label section one entry short", Refused(4), 3, &right),
        section("secrecy count cut", Refused(4), 3, &[0, 0, 0, 0]),
        section("integrity count cut", Refused(4), 3, &[0, 0, 0, 0, 0]),
        section("secrecy count one high", Refused(4), 2, &[0, 0, 2, 0, 1]),
        section("integrity count one high", Refused(4), 2, &[0, 0, 0, 2, 1]),
        section("secrecy count 255", Refused(4), 2, &[0, 0, 255, 0, 1]),
        section("integrity count 255", Refused(4), 2, &[0, 0, 0, 255, 1]),
        section("first secrecy count 255", Refused(4), 2, &[255, 0, 1, 0, 1]),
    ]);
    cases
}

/// Entries that would be whole if records were read on into.
fn cut_before_records() -> Vec<Case> {
    let mut script = plain();
    set_records(&mut script, 1);
    let section =
        |name: &str, demanded, section: &[u8]| case(name, demanded, with_section(&script, 2, section));
    vec![
        section("label section right with a record", Loaded, &[0, 0, 1, 0, 1]),
        section("label section one byte long with a record", Refused(4), &[0, 0, 1, 0, 1, 0]),
        section("last mask in the records", Refused(4), &[0, 0, 1, 0]),
        section("last integrity mask in the records", Refused(4), &[0, 0, 0, 1]),
        section("last entry in the records", Refused(4), &[0, 0]),
    ]
}
