//! Check 6: kinds and label indices of input records.

use crate::Answer::{self, Loaded};
use crate::{case, plain_but, set_records, Case};
use reference::script::{Clauses, Input};

pub fn cases() -> Vec<Case> {
    [kinds(), labels(), positions(), numbers()].concat()
}

/// A file of so many labels and records, one of them this.
fn file(labels: usize, records: usize, at: usize, record: Input) -> Vec<u8> {
    plain_but(|script| {
        script.labels.resize(labels, Clauses::default());
        set_records(script, records);
        script.records[at] = record;
    })
}

fn kinds() -> Vec<Case> {
    let kind = |kind: u8| {
        let record = Input { kind, label: 0, number: 7 };
        case(format!("record kind {kind}"), Answer::unless(kind <= 1, 6), file(2, 1, 0, record))
    };
    [0, 1, 2, 3, 128, 254, 255].map(kind).to_vec()
}

fn labels() -> Vec<Case> {
    let label = |(kind, label, labels): (u8, u8, u8)| {
        let record = Input { kind, label, number: 7 };
        let name = format!("record of kind {kind} with label {label} of {labels}");
        case(name, Answer::unless(label < labels, 6), file(labels.into(), 1, 0, record))
    };
    let of_two = [0, 1, 2, 3, 255].into_iter().flat_map(|label| [(0, label, 2), (1, label, 2)]);
    let of_more = [(0, 2, 3), (1, 3, 3), (1, 31, 32), (0, 32, 32)];
    of_two.chain(of_more).map(label).collect()
}

/// One record is wrong, the others are not.
fn positions() -> Vec<Case> {
    let wrong_kind = Input { kind: 2, label: 0, number: 7 };
    let wrong_label = Input::sealed(2, 7);
    [(0, 2), (1, 2), (1, 3), (63, 64)]
        .into_iter()
        .flat_map(|(at, count)| {
            let place = format!("record {at} of {count}");
            [
                case(format!("{place} of kind 2"), Answer::Refused(6), file(2, count, at, wrong_kind)),
                case(
                    format!("{place} with label 2 of 2"),
                    Answer::Refused(6),
                    file(2, count, at, wrong_label),
                ),
            ]
        })
        .collect()
}

/// No number is wrong.
fn numbers() -> Vec<Case> {
    [0, 2, 0x0202_0202, u32::MAX]
        .map(|number| {
            case(format!("record number {number}"), Loaded, file(2, 1, 0, Input::reference(1, number)))
        })
        .to_vec()
}
