//! Refusals 2 to 7, each for every reason there is, and the lowest number where
//! several apply. For 1 see the sizes; 8 and 9 are not the file's.

use crate::{label, script, tuned, Case, Expected};
use reference::limits::{header, input};
use reference::opcode::*;
use reference::script::{Clauses, Code};

pub fn cases() -> Vec<Case> {
    [headers(), sums(), labels(), records(), code(), several()].concat()
}

fn plain(code: &mut Code) {
    code.push(5).end();
}

fn plain_file() -> Vec<u8> {
    let mut code = Code::new();
    plain(&mut code);
    script(&code).bytes()
}

fn records_at(file: &[u8]) -> usize {
    u16::from_le_bytes([file[header::RECORDS_AT], file[header::RECORDS_AT + 1]]).into()
}

/// The plain file with some 16-bit numbers overwritten.
fn patched(name: &str, refusal: u8, patches: &[(usize, u16)]) -> Case {
    let mut file = plain_file();
    for &(at, number) in patches {
        file[at..at + 2].copy_from_slice(&number.to_le_bytes());
    }
    Case { name: name.into(), file, expected: Expected::Refused(refusal) }
}

fn headers() -> Vec<Case> {
    use header::*;
    let mut cases = Vec::new();
    for (name, at) in
        [("labels", LABEL_COUNT), ("records", RECORD_COUNT), ("code", CODE_LENGTH), ("places", PLACES)]
    {
        cases.push(patched(&format!("65,535 {name}"), 2, &[(at, u16::MAX)]));
    }
    let file = plain_file();
    for (name, at) in [("labels", LABELS_AT), ("records", RECORDS_AT), ("code", CODE_AT)] {
        let right = u16::from_le_bytes([file[at], file[at + 1]]);
        for (shift, wrong) in [("before", right - 1), ("behind", right + 1)] {
            cases.push(patched(&format!("{name} offset one {shift}"), 3, &[(at, wrong)]));
        }
        cases.push(patched(&format!("{name} offset 0"), 3, &[(at, 0)]));
        cases.push(patched(&format!("{name} offset 65,535"), 3, &[(at, u16::MAX)]));
    }
    cases
}

/// Offsets whose sums only hold modulo 2^16.
fn sums() -> Vec<Case> {
    use header::*;
    let mut wrapped_code = vec![0; 16];
    let wrapped_records = |code_at: u16| {
        let mut file = vec![0; 16 + 6];
        for (at, number) in [
            (LABEL_COUNT, 2),
            (LABELS_AT, 16),
            (RECORD_COUNT, 1),
            (RECORDS_AT, code_at.wrapping_sub(6)),
            (CODE_LENGTH, 22 - code_at),
            (CODE_AT, code_at),
            (STEPS, 1),
            (PLACES, 1),
        ] {
            file[at..at + 2].copy_from_slice(&number.to_le_bytes());
        }
        file
    };
    for (at, number) in [
        (LABEL_COUNT, 2u16),
        (LABELS_AT, 16),
        (RECORDS_AT, 65_530),
        (CODE_LENGTH, 22),
        (CODE_AT, 65_530),
        (STEPS, 1),
    ] {
        wrapped_code[at..at + 2].copy_from_slice(&number.to_le_bytes());
    }
    let case = |name: &str, file| Case { name: name.into(), file, expected: Expected::Refused(3) };
    vec![
        case("records offset + 6C past 65,535", wrapped_records(2)),
        case("records offset + 6C is 65,536", wrapped_records(0)),
        case("code offset + N past 65,535", wrapped_code),
    ]
}

fn labels() -> Vec<Case> {
    let entries = |name: &str, change: fn(&mut Vec<Clauses>)| {
        tuned(name, Expected::Refused(4), plain, |script| change(&mut script.labels))
    };
    // Changes the label count alone, so that too many or too few entries are read.
    let miscounted = |name: &str, count| patched(name, 4, &[(header::LABEL_COUNT, count)]);
    let mut long_count = plain_file();
    long_count[header::LENGTH] = 255;
    let mut cut_count = plain_file();
    let last_count = records_at(&cut_count) - 2;
    cut_count[last_count] = 2;
    let case = |name: &str, file| Case { name: name.into(), file, expected: Expected::Refused(4) };
    vec![
        miscounted("one entry more than there is", 7),
        miscounted("one entry fewer than there are", 5),
        case("a count of 255 clauses", long_count),
        case("an entry cut by the records", cut_count),
        entries("an integrity clause that descends", |labels| labels[5] = Clauses::new(&[], &[8, 4])),
        entries("clauses 80, 40", |labels| labels[0] = Clauses::new(&[128, 64], &[])),
        entries("integrity clauses 40, C0", |labels| labels[1] = Clauses::new(&[], &[64, 192])),
        entries("integrity clauses 00, 80", |labels| labels[1] = Clauses::new(&[], &[0, 128])),
        entries("clauses FF, FF", |labels| labels[0] = Clauses::new(&[255, 255], &[])),
    ]
}

fn records() -> Vec<Case> {
    let record = |name: &str, refusal, at: usize, byte: u8| {
        let mut file = plain_file();
        let at = records_at(&file) + at;
        file[at] = byte;
        Case { name: name.into(), file, expected: Expected::Refused(refusal) }
    };
    let last = 6 * input::LENGTH;
    vec![
        record("a record of kind 2", 6, input::KIND, 2),
        record("a last record of kind 255", 6, last + input::KIND, 255),
        record("a record's label index L", 6, input::LABEL, 6),
        record("a last record's label index 255", 6, last + input::LABEL, 255),
    ]
}

fn code() -> Vec<Case> {
    let raw = |name: &str, bytes: &[u8]| {
        let bytes = bytes.to_vec();
        tuned(name, Expected::Refused(7), plain, |script| script.code = bytes)
    };
    let mut cases = vec![
        raw("opcode 1E", &[0x1E, END]),
        raw("opcode FF", &[0xFF, END]),
        raw("an unknown opcode never reached", &[JUMP, 4, 0, 0x1E, END]),
        raw("label index L", &[LAB, 6, END]),
        raw("a label index never reached", &[JUMP, 5, 0, LAB, 6, END]),
        raw("INPUT index C", &[INPUT, 7, END]),
        raw("local 16 got", &[GET, 16, END]),
        raw("local 16 set", &[SET, 16, END]),
        raw("JUMP past the end", &[JUMP, 3, 0]),
        raw("JUMP into an operand", &[JUMP, 4, 0, LAB, 0, END]),
        raw("JUMP far past the end", &[JUMP, 255, 255]),
        raw("IFZ into itself", &[IFZ, 1, 0, END]),
        raw("a BLOCK's body in its operand", &[BLOCK, 3, 0, 0, 0, 0, END]),
        raw("a handler past the end", &[TRY, 4, 0, END]),
        raw("JUMP to 64 past a start", &[JUMP, 67, 0, END]),
    ];
    for (opcode, shape) in (0u8..).zip(&SHAPES) {
        // Zeros are operands that stand up to every other reason of refusal 7.
        let mut whole = vec![0; shape.length];
        whole[0] = opcode;
        if !matches!(opcode, END | JUMP | THROW) {
            cases.push(raw(&format!("{} as the last instruction", shape.name), &whole));
        }
        for length in 1..shape.length {
            cases.push(raw(&format!("{} cut to {length} bytes", shape.name), &whole[..length]));
        }
    }
    cases
}

/// Two or more reasons at once.
fn several() -> Vec<Case> {
    let both = |name: &str, refusal, change: fn(&mut reference::script::Script)| {
        tuned(name, Expected::Refused(refusal), plain, change)
    };
    vec![
        both("2 before 4", 2, |script| {
            script.steps = 0;
            script.labels[0] = Clauses::new(&[64, 64], &[]);
        }),
        patched("2 before 3", 2, &[(header::STEPS, 0), (header::LABELS_AT, 17)]),
        patched("3 before 4", 3, &[(header::LABEL_COUNT, 7), (header::LABELS_AT, 17)]),
        both("4 before 5", 4, |script| {
            script.labels[0] = Clauses::new(&[0], &[]);
            script.labels[2] = Clauses::new(&[64, 64], &[]);
        }),
        both("5 before 6", 5, |script| {
            script.labels[0] = Clauses::new(&[0], &[]);
            script.records[0].kind = 2;
        }),
        both("5 before 7", 5, |script| {
            script.labels[0] = Clauses::new(&[8], &[]);
            script.code = vec![0x1E];
        }),
        both("6 before 7", 6, |script| {
            script.records[0].label = 6;
            script.code = vec![POP];
        }),
        both("5 for secrecy", 5, |script| script.labels[0] = Clauses::new(&[8], &[])),
        both("5 for integrity", 5, |script| script.labels[1] = Clauses::new(&[0], &[label::DEALER])),
        both("5 for labels the wrong way round", 5, |script| script.labels.swap(0, 1)),
    ]
}
