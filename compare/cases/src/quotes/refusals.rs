//! Checks 1 to 7 are those of a read and come first. Each is tried on code that would
//! be quoted, and on code that check 11 would refuse.

use super::{of, refused, with_code, QuoteCase};
use crate::days;
use reference::limits::header;
use reference::opcode::*;
use reference::script::{Clauses, Script};

pub fn cases() -> Vec<QuoteCase> {
    [sizes(), counts(), layouts(), parts(), code(), other_files()].concat()
}

/// Code that is quoted, and code that is refused with 11.
const CODES: [(&str, &[u8]); 2] = [("", &[PUSH, 5, 0, 0, 0, END]), (", before 11", &[JUMP, 0, 0])];

/// A case for each of the codes, its file changed.
fn each(name: &str, refusal: u8, change: impl Fn(&mut Vec<u8>)) -> Vec<QuoteCase> {
    let one = |(which, code): (&str, &[u8])| {
        let mut file = with_code(code).bytes();
        change(&mut file);
        QuoteCase { name: format!("{name}{which}"), file, expected: Err(refusal) }
    };
    CODES.into_iter().map(one).collect()
}

/// The same with a script that is changed.
fn each_script(name: &str, refusal: u8, change: impl Fn(&mut Script)) -> Vec<QuoteCase> {
    let one = |(which, code): (&str, &[u8])| {
        let mut script = with_code(code);
        change(&mut script);
        of(format!("{name}{which}"), Err(refusal), &script)
    };
    CODES.into_iter().map(one).collect()
}

/// The same with a number of the header overwritten.
fn each_patched(name: &str, refusal: u8, at: usize, number: u16) -> Vec<QuoteCase> {
    each(name, refusal, |file| file[at..at + 2].copy_from_slice(&number.to_le_bytes()))
}

fn sizes() -> Vec<QuoteCase> {
    let mut too_long = with_code(CODES[0].1).bytes();
    too_long.resize(65_536, 0);
    let mut cases = vec![
        QuoteCase { name: "a file of 0 bytes".into(), file: vec![], expected: Err(1) },
        QuoteCase { name: "a file of 65,536 bytes".into(), file: too_long, expected: Err(1) },
    ];
    cases.extend(each("a file of 15 bytes", 1, |file| file.truncate(15)));
    cases.extend(each("a file of 16 bytes", 3, |file| file.truncate(16)));
    cases
}

fn counts() -> Vec<QuoteCase> {
    use header::*;
    [
        each_patched("1 label", 2, LABEL_COUNT, 1),
        each_patched("33 labels", 2, LABEL_COUNT, 33),
        each_patched("65 records", 2, RECORD_COUNT, 65),
        each_patched("no code", 2, CODE_LENGTH, 0),
        each_patched("4,097 bytes of code", 2, CODE_LENGTH, 4097),
        each_patched("0 steps", 2, STEPS, 0),
        each_patched("fewer places than records", 2, PLACES, 6),
        each_patched("257 places", 2, PLACES, 257),
    ]
    .concat()
}

fn layouts() -> Vec<QuoteCase> {
    [
        each_patched("labels at 17", 3, header::LABELS_AT, 17),
        each_patched("records at 15", 3, header::RECORDS_AT, 15),
        each_patched("code at 16", 3, header::CODE_AT, 16),
        each("a byte behind the code", 3, |file| file.push(END)),
        each("a byte too few", 3, |file| _ = file.pop()),
    ]
    .concat()
}

fn parts() -> Vec<QuoteCase> {
    [
        each_script("a mask twice", 4, |script| script.labels[3] = Clauses::new(&[64, 64], &[])),
        each_patched("one label more than there is", 4, header::LABEL_COUNT, 7),
        each_script("a start above the clearance", 5, |script| script.labels.swap(0, 1)),
        each_script("a start that is vouched for less", 5, |script| {
            script.labels[1] = Clauses::new(&[0], &[2]);
        }),
        each_script("a record of kind 2", 6, |script| script.records[6].kind = 2),
        each_script("a record's label index L", 6, |script| script.records[0].label = 6),
    ]
    .concat()
}

/// Refusal 7, of code that check 11 would find something in as well.
fn code() -> Vec<QuoteCase> {
    let after = |name: &str, wrong: &[u8]| {
        let behind = [&[JUMP, 0, 0], wrong].concat();
        [refused(name, 7, wrong), refused(format!("{name}, behind a JUMP to itself"), 7, &behind)]
    };
    let mut cases = [
        after("an unknown opcode", &[0x1E, END]),
        after("a cut PUSH", &[END, PUSH, 1, 0, 0]),
        after("a cut BLOCK", &[END, BLOCK, 0, 0, 1, 0]),
        after("label index L", &[LAB, 6, END]),
        after("INPUT index C", &[INPUT, 7, END]),
        after("local 16", &[GET, 16, END]),
        after("a last instruction POP", &[CUR, POP]),
        after("a last instruction DONE", &[END, DONE]),
    ]
    .concat();
    cases.extend([
        refused("a TRY, and an unknown opcode in dead code", 7, &[TRY, 3, 0, END, 0xFF]),
        refused("a TRY whose handler is behind the code", 7, &[TRY, 4, 0, END]),
        refused("a TRY whose handler is in its operand", 7, &[TRY, 1, 0, END]),
        refused("a last instruction TRY", 7, &[END, TRY, 0, 0]),
        refused("a JUMP into its own operand", 7, &[JUMP, 1, 0]),
        refused("a JUMP ahead into an operand", 7, &[JUMP, 4, 0, LAB, 0, END]),
        refused("a JUMP back into an operand", 7, &[LAB, 0, JUMP, 1, 0]),
        refused("a JUMP to the code's end", 7, &[JUMP, 3, 0]),
        refused("an IFZ far past the code's end", 7, &[IFZ, 255, 255, END]),
        refused("a BLOCK whose body is past the code's end", 7, &[BLOCK, 7, 0, 0, 0, 0, END]),
        refused("a last instruction IFZ to itself", 7, &[IFZ, 0, 0]),
        refused("a last instruction BLOCK to itself", 7, &[BLOCK, 0, 0, 0, 0, 0]),
    ]);
    cases
}

/// A day is no plain file.
fn other_files() -> Vec<QuoteCase> {
    let file = days::of(&[days::five, days::five]).bytes();
    vec![QuoteCase { name: "a day".into(), file, expected: Err(3) }]
}
