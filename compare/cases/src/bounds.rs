//! Files at, and just past, every limit of their size.

use crate::{label, script, tuned, Case, Expected};
use reference::limits::MAX_CODE;
use reference::opcode::*;
use reference::script::{Clauses, Code, Input};
use reference::value::{Ending, Value};

pub fn cases() -> Vec<Case> {
    [counts(), clauses(), full_store(), long_files()].concat()
}

fn plain(code: &mut Code) {
    code.push(5).end();
}

/// Code of `length` bytes whose last instruction is reached by a jump.
fn long_code(code: &mut Code, length: usize) {
    let last = code.target();
    code.jump(last);
    while code.len() < length - 6 {
        code.op(POP);
    }
    code.place(last);
    plain(code);
}

fn counts() -> Vec<Case> {
    let five = Expected::number(5);
    let code =
        |name: &str, expected, length: usize| tuned(name, expected, |code| long_code(code, length), |_| ());
    let labels = |name: &str, expected, count: usize| {
        tuned(name, expected, plain, |script| {
            script.records.clear();
            script.labels.resize(count, Clauses::new(&[3], &[4, 8]));
        })
    };
    let records = |name: &str, expected, count: usize| {
        tuned(name, expected, plain, |script| {
            script.records.resize(count, Input::reference(label::PLAYER, 1));
            script.places = count as u16;
        })
    };
    let steps = |name: &str, expected, steps| tuned(name, expected, plain, |script| script.steps = steps);
    let end_only = |code: &mut Code| _ = code.end();
    vec![
        code("4096 bytes of code", five, MAX_CODE),
        code("4097 bytes of code", Expected::Refused(2), MAX_CODE + 1),
        tuned("1 byte of code", Expected::fault(20), end_only, |_| ()),
        tuned("no code", Expected::Refused(2), |_| (), |_| ()),
        labels("2 labels", five, 2),
        labels("1 label", Expected::Refused(2), 1),
        labels("32 labels", five, 32),
        labels("33 labels", Expected::Refused(2), 33),
        records("64 records", five, 64),
        records("65 records", Expected::Refused(2), 65),
        records("no records", five, 0),
        steps("1 step", Expected::Ends(Ending::Spent), 1),
        steps("0 steps", Expected::Refused(2), 0),
        tuned("as many places as records", five, plain, |script| script.places = 7),
        tuned("fewer places than records", Expected::Refused(2), plain, |script| script.places = 6),
        tuned("65,535 steps, all used", Expected::Ends(Ending::Spent), endless, |script| {
            script.steps = u16::MAX
        }),
    ]
}

fn endless(code: &mut Code) {
    let again = code.here();
    code.jump(again);
}

/// All masks of four bits: the longest list that can be well formed.
pub fn seventy_clauses() -> Vec<u8> {
    (0u8..=255).filter(|mask| mask.count_ones() == 4).collect()
}

/// All masks of three bits among the first six: the longest list without the last two
/// principals.
pub fn twenty_clauses() -> Vec<u8> {
    (0u8..64).filter(|mask| mask.count_ones() == 3).collect()
}

fn clauses() -> Vec<Case> {
    let entry = |name: &str, expected, masks: Clauses| {
        tuned(name, expected, plain, |script| script.labels[label::DEALER as usize] = masks)
    };
    let (twenty, seventy) = (twenty_clauses(), seventy_clauses());
    let with = |masks: &[u8], last: u8| [masks, &[last]].concat();
    vec![
        entry("20 clauses", Expected::number(5), Clauses::new(&twenty, &twenty)),
        entry("21 clauses", Expected::number(5), Clauses::new(&with(&twenty, 64), &with(&twenty, 128))),
        entry(
            "21 clauses, one of them a superset",
            Expected::Refused(4),
            Clauses::new(&with(&twenty, 63), &[]),
        ),
        entry("70 clauses", Expected::number(5), Clauses::new(&seventy, &seventy)),
        entry("71 clauses", Expected::Refused(4), Clauses::new(&with(&seventy, 255), &[])),
        entry("71 clauses of integrity", Expected::Refused(4), Clauses::new(&[], &with(&seventy, 255))),
        entry("the empty clause alone", Expected::number(5), Clauses::new(&[0], &[0])),
        entry("the empty clause and another", Expected::Refused(4), Clauses::new(&[], &[0, 1])),
        entry("a clause twice", Expected::Refused(4), Clauses::new(&[], &[4, 4])),
        entry("a subset two clauses on", Expected::Refused(4), Clauses::new(&[1, 6, 9], &[])),
        entry(
            "all single principals",
            Expected::number(5),
            Clauses::new(&[1, 2, 4, 8, 16, 32, 64, 128], &[255]),
        ),
    ]
}

fn full_store() -> Vec<Case> {
    let fill = |name: &str, opcode: u8, places: u16| {
        let write = |code: &mut Code| {
            let again = code.here();
            code.push(1).lab(label::PUBLIC).ops(&[opcode, POP]).jump(again);
        };
        tuned(name, Expected::fault(26), write, |script| {
            // Two long views are enough.
            script.labels.truncate(2);
            script.records.clear();
            script.places = places;
            script.steps = u16::MAX;
        })
    };
    let last = tuned(
        "the last place of 256",
        Expected::Ends(Ending::Result(Value::Reference(255))),
        |code| {
            let body = code.target();
            code.lab(label::PUBLIC).block(body, 1, 247).op(POP).push(1).lab(label::PUBLIC).ops(&[NEW, END]);
            code.place(body).end();
        },
        |script| script.places = 256,
    );
    vec![fill("sealed records in 256 places", SEAL, 256), fill("references in 255 places", NEW, 255), last]
}

fn long_files() -> Vec<Case> {
    let mut code = Code::new();
    plain(&mut code);
    let file = script(&code).bytes();
    let stretched = |name: &str, expected, length| {
        let mut file = file.clone();
        file.resize(length, 0);
        Case { name: name.into(), file, expected }
    };
    vec![
        stretched("65,535 bytes", Expected::Refused(3), 65_535),
        stretched("65,536 bytes", Expected::Refused(1), 65_536),
        stretched("one byte too many", Expected::Refused(3), file.len() + 1),
        stretched("one byte too few", Expected::Refused(3), file.len() - 1),
        stretched("16 bytes", Expected::Refused(3), 16),
        stretched("15 bytes", Expected::Refused(1), 15),
        stretched("no bytes", Expected::Refused(1), 0),
    ]
}
