//! Check 3: each offset and the file's end, off by one and by more.

use crate::Answer::{self, Refused};
use crate::{case, patched, plain, plain_but, set_records, Case};
use reference::limits::header::*;

pub fn cases() -> Vec<Case> {
    [offsets(), low_records(), gaps(), ends(), wrapped()].concat()
}

/// One offset of the plain file changed. Its labels are at 16, records and code
/// at 21.
fn offsets() -> Vec<Case> {
    let moved = |name: &'static str, at: usize, right: usize, others: &[usize]| -> Vec<Case> {
        let moved = |&offset: &usize| {
            let file = patched(plain().bytes(), &[(at, offset)]);
            case(format!("{name} at {offset}"), Answer::unless(offset == right, 3), file)
        };
        others.iter().map(moved).collect()
    };
    [
        moved("labels", LABELS_AT, 16, &[0, 15, 16, 17, 21, 272, 65_535]),
        moved("records", RECORDS_AT, 21, &[0, 15, 16, 20, 21, 22, 277, 65_535]),
        moved("code", CODE_AT, 21, &[0, 16, 20, 21, 22, 277, 65_535]),
    ]
    .concat()
}

/// Records offsets under 16 that the code offset and the length agree with.
fn low_records() -> Vec<Case> {
    let header_alone = |code_at: usize| {
        let file = plain().bytes()[..LENGTH].to_vec();
        patched(file, &[(RECORDS_AT, code_at), (CODE_AT, code_at), (CODE_LENGTH, LENGTH - code_at)])
    };
    let one_record = patched(
        plain_but(|script| set_records(script, 1))[..LENGTH + 1].to_vec(),
        &[(RECORDS_AT, 10), (CODE_AT, 16)],
    );
    vec![
        case("records and code at 15", Refused(3), header_alone(15)),
        case("records and code at 0", Refused(3), header_alone(0)),
        case("one record at 10 and code at 16", Refused(3), one_record),
    ]
}

/// A code offset that the length agrees with, and the records do not.
fn gaps() -> Vec<Case> {
    let shifted = |records: usize, code_at: usize| {
        let mut file = plain_but(|script| set_records(script, records));
        file.resize(code_at + 1, 0);
        let demanded = Answer::unless(code_at == 21 + 6 * records, 3);
        case(
            format!("code at {code_at} behind {records} records"),
            demanded,
            patched(file, &[(CODE_AT, code_at)]),
        )
    };
    [(0, 20), (0, 22), (0, 27), (1, 21), (1, 26), (1, 27), (1, 28), (2, 27), (2, 32), (2, 33), (2, 34)]
        .map(|(records, code_at)| shifted(records, code_at))
        .to_vec()
}

/// Files one byte shorter or longer than code offset and count say.
fn ends() -> Vec<Case> {
    let file = |records: usize| plain_but(|script| set_records(script, records));
    let resized = |records: usize, by: isize| {
        let mut file = file(records);
        file.resize(file.len().saturating_add_signed(by), 0);
        file
    };
    let counted = |length: usize| patched(file(0), &[(CODE_LENGTH, length)]);
    vec![
        case("a byte behind the code", Refused(3), resized(0, 1)),
        case("no byte of the code", Refused(3), resized(0, -1)),
        case("a byte behind the code with a record", Refused(3), resized(1, 1)),
        case("no byte of the code with a record", Refused(3), resized(1, -1)),
        case("code one byte long", Refused(3), counted(2)),
        case("code 256 bytes long", Refused(3), counted(257)),
    ]
}

/// Sums that hold only modulo 2^16.
fn wrapped() -> Vec<Case> {
    let file = |records: usize, records_at: usize, code_at: usize, code: usize, length: usize| {
        let mut file = plain_but(|script| set_records(script, records));
        file.resize(length, 0);
        patched(file, &[(RECORDS_AT, records_at), (CODE_AT, code_at), (CODE_LENGTH, code)])
    };
    vec![
        case("records at 65530 with two records wrap to code at 6", Refused(3), file(2, 65_530, 6, 30, 36)),
        case("records at 65530 with one record wrap to code at 0", Refused(3), file(1, 65_530, 0, 28, 28)),
        case("records at 65535 with 64 records wrap", Refused(3), file(64, 65_535, 383, 1, 406)),
        case(
            "code at 61464 with 4096 bytes wraps to the length",
            Refused(3),
            file(0, 61_464, 61_464, 4096, 24),
        ),
    ]
}
