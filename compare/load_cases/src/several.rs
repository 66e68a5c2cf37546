//! Two or more reasons at once: the lowest number is returned.

use crate::Answer::Refused;
use crate::{case, patched, plain, plain_but, set_records, Case};
use reference::limits::header;
use reference::script::{Clauses, Script};

pub fn cases() -> Vec<Case> {
    [pairs(), with_size(), all_from(), other_pairs()].concat()
}

/// A file that is wrong for each of these reasons, 2 to 7, and no other.
fn wrong_for(reasons: &[u8]) -> Vec<u8> {
    let mut script = plain();
    script.labels.push(Clauses::new(&[2], &[]));
    set_records(&mut script, 1);
    reasons.iter().for_each(|&reason| break_part(&mut script, reason));
    let offsets = reasons.iter().filter(|&&reason| reason == 3).map(|_| (header::LABELS_AT, 17));
    patched(script.bytes(), &offsets.collect::<Vec<_>>())
}

/// Reason 3 is not a part's.
fn break_part(script: &mut Script, reason: u8) {
    match reason {
        2 => script.steps = 0,
        4 => script.labels[2] = Clauses::new(&[64, 64], &[]),
        5 => script.labels.swap(0, 1),
        6 => script.records[0].kind = 2,
        7 => script.code = vec![0x1E],
        _ => (),
    }
}

fn pairs() -> Vec<Case> {
    let pairs = (2..=7).flat_map(|low| (low + 1..=7).map(move |high| (low, high)));
    let alone = (2..=7).map(|reason| case(format!("{reason} alone"), Refused(reason), wrong_for(&[reason])));
    alone
        .chain(
            pairs.map(|(low, high)| case(format!("{low} and {high}"), Refused(low), wrong_for(&[low, high]))),
        )
        .collect()
}

/// Reason 1 and a later one; for 1 and 4 see the sizes.
fn with_size() -> Vec<Case> {
    let resized = |reasons: &[u8], length: usize| {
        let mut file = wrong_for(reasons);
        file.resize(length, 0);
        file
    };
    vec![
        case("1 and 2, too long", Refused(1), resized(&[2], 65_536)),
        case("1 and 3, too long", Refused(1), resized(&[3], 65_536)),
        case("1 and 2, too short", Refused(1), resized(&[2], 15)),
        case("1 and 3, too short", Refused(1), resized(&[3], 15)),
    ]
}

/// Every reason from one on.
fn all_from() -> Vec<Case> {
    let all = |lowest: u8| {
        let reasons: Vec<u8> = (lowest..=7).collect();
        case(format!("{lowest} and all behind it"), Refused(lowest), wrong_for(&reasons))
    };
    let mut too_long = wrong_for(&[2, 3, 4, 5, 6, 7]);
    too_long.resize(65_536, 0);
    let mut cases = vec![case("1 and all behind it", Refused(1), too_long)];
    cases.extend((2..=5).map(all));
    cases
}

/// Pairs in other forms: another count, another label, another index.
fn other_pairs() -> Vec<Case> {
    let pair = |name: &str, refusal, change: fn(&mut Script)| case(name, Refused(refusal), plain_but(change));
    let labels_at_17 = |pair: Case| Case { file: patched(pair.file, &[(header::LABELS_AT, 17)]), ..pair };
    vec![
        pair("places and opcode", 2, |script| {
            script.places = 257;
            script.code = vec![0x1E];
        }),
        labels_at_17(pair("steps and labels offset", 2, |script| script.steps = 0)),
        labels_at_17(pair("labels offset and mask", 3, |script| {
            script.labels[1] = Clauses::new(&[64, 64], &[])
        })),
        pair("mask and start", 4, |script| {
            script.labels = vec![Clauses::new(&[1], &[]), Clauses::default(), Clauses::new(&[64, 64], &[])];
        }),
        pair("mask and kind", 4, |script| {
            script.labels[1] = Clauses::new(&[3, 1], &[]);
            set_records(script, 1);
            script.records[0].kind = 9;
        }),
        pair("start and kind", 5, |script| {
            script.labels.swap(0, 1);
            set_records(script, 1);
            script.records[0].kind = 2;
        }),
        pair("start and opcode", 5, |script| {
            script.labels.swap(0, 1);
            script.code = vec![0x1E];
        }),
        pair("kind and opcode", 6, |script| {
            set_records(script, 1);
            script.records[0].kind = 2;
            script.code = vec![0x1E];
        }),
    ]
}
