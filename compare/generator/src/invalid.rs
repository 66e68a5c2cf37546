//! Files to be refused: a valid one, broken in one way.

use crate::parties::Parties;
use crate::random::Random;
use reference::limits::{header, MAX_CLAUSES};
use reference::opcode::*;
use reference::script::{Clauses, Input, Script};

/// A file that is refused with `refusal`, 1 to 7.
pub fn file(random: &mut Random, refusal: u8) -> Vec<u8> {
    let script = crate::script(random);
    broken(random, script, refusal)
}

/// The valid `script`, broken so that it is refused with `refusal`.
pub fn broken(random: &mut Random, mut script: Script, refusal: u8) -> Vec<u8> {
    match refusal {
        1 => wrong_size(random, script.bytes()),
        2 => wrong_count(random, script.bytes()),
        3 => wrong_layout(random, script.bytes()),
        4 => wrong_labels(random, script),
        5 => {
            script.labels[0] = Clauses::new(&[0], &[]);
            script.labels[1] = Clauses::new(random.pick(&[&[], &[1], &[1, 2]]), random.pick(&[&[], &[4]]));
            script.bytes()
        }
        6 => wrong_record(random, script),
        _ => {
            let (labels, records) = (script.labels.len() as u8, script.records.len() as u8);
            break_code(random, &mut script.code, labels, records);
            script.bytes()
        }
    }
}

fn wrong_size(random: &mut Random, mut file: Vec<u8>) -> Vec<u8> {
    let length = if random.chance(95) { random.below(16) } else { 65_536 + random.below(3) };
    file.resize(length, 0);
    file
}

pub fn patch(file: &mut [u8], at: usize, number: usize) {
    file[at..at + 2].copy_from_slice(&(number as u16).to_le_bytes());
}

pub fn field(file: &[u8], at: usize) -> usize {
    u16::from_le_bytes([file[at], file[at + 1]]).into()
}

fn wrong_count(random: &mut Random, mut file: Vec<u8>) -> Vec<u8> {
    let records = field(&file, header::RECORD_COUNT);
    match random.below(6) {
        0 => patch(&mut file, header::LABEL_COUNT, random.below(2)),
        1 => patch(&mut file, header::LABEL_COUNT, random.within(33, 65_535)),
        2 => patch(&mut file, header::RECORD_COUNT, random.within(65, 65_535)),
        3 => {
            let length = random.pick(&[0, 4097, 65_535]);
            patch(&mut file, header::CODE_LENGTH, length);
        }
        4 => patch(&mut file, header::STEPS, 0),
        _ if records > 0 && random.chance(50) => patch(&mut file, header::PLACES, random.below(records)),
        _ => patch(&mut file, header::PLACES, random.within(257, 65_535)),
    }
    file
}

fn wrong_layout(random: &mut Random, mut file: Vec<u8>) -> Vec<u8> {
    let at = random.pick(&[header::LABELS_AT, header::RECORDS_AT, header::CODE_AT]);
    match random.below(3) {
        0 => patch(&mut file, at, random.below(16)),
        1 => {
            let right = field(&file, at);
            patch(&mut file, at, right + random.within(1, 9));
        }
        _ if random.chance(50) => file.push(0),
        _ => drop(file.pop()),
    }
    file
}

fn wrong_labels(random: &mut Random, mut script: Script) -> Vec<u8> {
    if break_label(random, &mut script.labels) {
        return script.bytes();
    }
    let mut file = script.bytes();
    break_count(random, &mut file, header::LENGTH);
    file
}

/// Makes one of the labels malformed, or tells that a count is to be broken.
pub fn break_label(random: &mut Random, labels: &mut [Clauses]) -> bool {
    let at = random.below(labels.len());
    let masks = match random.below(8) {
        0 => vec![1, 3],
        1 => vec![2, 1],
        2 => [&Parties::Eight.longest_formula()[..], &[255]].concat(),
        3 => vec![0, random.within(1, 255) as u8],
        4 => vec![4, 4],
        5 => vec![64, 192],
        6 => vec![128, 64],
        _ => return false,
    };
    if random.chance(50) {
        labels[at].secrecy = masks;
    } else {
        labels[at].integrity = masks;
    }
    true
}

/// A count of clauses, of the label at `at`, that the entries do not bear out.
pub fn break_count(random: &mut Random, file: &mut [u8], at: usize) {
    file[at + random.below(2)] = random.within(MAX_CLAUSES + 1, 255) as u8;
}

fn wrong_record(random: &mut Random, mut script: Script) -> Vec<u8> {
    if script.records.is_empty() {
        script.records.push(Input::sealed(0, 1));
        script.places = script.places.max(1);
    }
    break_record(random, &mut script.records, script.labels.len());
    script.bytes()
}

/// Gives one of the records a kind or label that there is not.
pub fn break_record(random: &mut Random, records: &mut [Input], labels: usize) {
    let at = random.below(records.len());
    if random.chance(50) {
        records[at].kind = random.within(2, 255) as u8;
    } else {
        records[at].label = random.within(labels, 255) as u8;
    }
}

/// Refusal 7 is for the code: appends something that check 7 knows to be wrong,
/// reached or not.
pub fn break_code(random: &mut Random, code: &mut Vec<u8>, labels: u8, records: u8) {
    let end = code.len() as u16;
    let target = |to: u16| to.to_le_bytes();
    match random.below(9) {
        0 => code.extend([random.within(OPCODES, 255) as u8, END]),
        1 => code.extend([LAB, labels, END]),
        2 => code.extend([INPUT, records, END]),
        3 => code.extend([random.pick(&[GET, SET]), random.within(16, 255) as u8, END]),
        4 => {
            // Into its own operand, or behind the end.
            let wrong = target(end + random.pick(&[1, 2, 3]));
            code.extend([JUMP, wrong[0], wrong[1]]);
        }
        5 => {
            let wrong = target(random.within(4096, 65_535) as u16);
            let opcode = random.pick(&[IFZ, TRY]);
            code.extend([opcode, wrong[0], wrong[1], END]);
        }
        6 => {
            let wrong = target(end + random.within(1, 5) as u16);
            code.extend([BLOCK, wrong[0], wrong[1], 0, 0, 0, END]);
        }
        7 => code.push(random.pick(&[PUSH, LAB, GET, SET, JUMP, IFZ, BLOCK, TRY, INPUT])),
        _ => code.push(random.pick(&[POP, ADD, CUR, OPEN, SEAL, DONE, WRITE])),
    }
}
