//! Loaders with one rule wrong.

use crate::loader::{ascends, at_most, is_subset, subset_free, well_formed, Loader, PAPER};
use crate::words::{flows_but_for, flows_in_lowest_word};
use reference::opcode::*;

pub struct WrongLoader {
    /// The check whose rule is wrong; of two in the wrong order, the first.
    pub check: u8,
    /// What it does instead of the paper's rule.
    pub says: String,
    pub loader: Loader,
}

pub fn all() -> Vec<WrongLoader> {
    let mut all: Vec<WrongLoader> =
        RULES.iter().map(|(check, says, change)| wrong(*check, *says, change)).collect();
    for &(says, rule) in MASKS {
        all.push(wrong(4, format!("secrecy: {says}"), |loader| loader.secrecy = rule));
        all.push(wrong(4, format!("integrity: {says}"), |loader| loader.integrity = rule));
    }
    all
}

fn wrong(check: u8, says: impl Into<String>, change: impl FnOnce(&mut Loader)) -> WrongLoader {
    let mut loader = PAPER.clone();
    change(&mut loader);
    WrongLoader { check, says: says.into(), loader }
}

fn low_bits(masks: &[u8], bits: u8) -> Vec<u8> {
    masks.iter().map(|mask| mask & bits).collect()
}

/// Rules for the masks of one formula.
const MASKS: &[(&str, fn(&[u8]) -> bool)] = &[
    ("masks are not looked at", |_| true),
    ("mask 64 is malformed", |masks| well_formed(masks) && !masks.contains(&64)),
    ("mask 128 is malformed", |masks| well_formed(masks) && !masks.contains(&128)),
    ("masks above 63 are malformed", |masks| well_formed(masks) && at_most(masks, 63)),
    ("masks above 127 are malformed", |masks| well_formed(masks) && at_most(masks, 127)),
    ("mask 255 is malformed", |masks| well_formed(masks) && at_most(masks, 254)),
    ("mask 0 is malformed", |masks| well_formed(masks) && masks != [0]),
    ("20 clauses are the most", |masks| well_formed(masks) && masks.len() <= 20),
    ("70 clauses are too many", |masks| well_formed(masks) && masks.len() < 70),
    ("six bits of a mask are looked at", |masks| well_formed(&low_bits(masks, 63))),
    ("seven bits of a mask are looked at", |masks| well_formed(&low_bits(masks, 127))),
    ("masks are compared as signed numbers", |masks| {
        let signed: Vec<i8> = masks.iter().map(|&mask| mask as i8).collect();
        well_formed(masks) && signed.is_sorted()
    }),
    ("a mask may be there twice", |masks| {
        let mut masks = masks.to_vec();
        masks.dedup();
        well_formed(&masks)
    }),
    ("masks may descend", |masks| {
        let mut masks = masks.to_vec();
        masks.sort();
        well_formed(&masks)
    }),
    ("subsets are taken", ascends),
    ("subsets are looked for in six bits", |masks| ascends(masks) && subset_free(&low_bits(masks, 63))),
    ("subsets are looked for among neighbours", |masks| {
        let apart = masks.windows(2).all(|two| !is_subset(two[0], two[1]));
        ascends(masks) && apart
    }),
    ("False may have other clauses", |masks| well_formed(masks.strip_prefix(&[0]).unwrap_or(masks))),
];

const RULES: &[(u8, &str, fn(&mut Loader))] = &[
    (1, "15 bytes are enough", |loader| loader.length = 15..=65_535),
    (1, "16 bytes are too few", |loader| loader.length = 17..=65_535),
    (1, "65,535 bytes are too many", |loader| loader.length = 16..=65_534),
    (1, "65,536 bytes are taken", |loader| loader.length = 16..=65_536),
    (1, "check 2 before check 1", |loader| loader.order.swap(0, 1)),
    (2, "1 label is enough", |loader| loader.labels = 1..=32),
    (2, "2 labels are too few", |loader| loader.labels = 3..=32),
    (2, "32 labels are too many", |loader| loader.labels = 2..=31),
    (2, "33 labels are taken", |loader| loader.labels = 2..=33),
    (2, "a record is needed", |loader| loader.records = 1..=64),
    (2, "64 records are too many", |loader| loader.records = 0..=63),
    (2, "65 records are taken", |loader| loader.records = 0..=65),
    (2, "no code is enough", |loader| loader.code = 0..=4096),
    (2, "1 byte of code is too few", |loader| loader.code = 2..=4096),
    (2, "4,096 bytes of code are too many", |loader| loader.code = 1..=4095),
    (2, "4,097 bytes of code are taken", |loader| loader.code = 1..=4097),
    (2, "no steps are enough", |loader| loader.steps = 0..=65_535),
    (2, "1 step is too few", |loader| loader.steps = 2..=65_535),
    (2, "65,535 steps are too many", |loader| loader.steps = 1..=65_534),
    (2, "one place fewer than records is enough", |loader| {
        loader.fewest_places = |records| records.saturating_sub(1)
    }),
    (2, "one place more than records is needed", |loader| loader.fewest_places = |records| records + 1),
    (2, "256 places are too many", |loader| loader.most_places = 255),
    (2, "257 places are taken", |loader| loader.most_places = 257),
    (2, "check 3 before check 2", |loader| loader.order.swap(1, 2)),
    (3, "the labels offset is not looked at", |loader| loader.labels_at = |_| true),
    (3, "a labels offset above 16 is taken", |loader| loader.labels_at = |at| at >= 16),
    (3, "a labels offset below 16 is taken", |loader| loader.labels_at = |at| at <= 16),
    (3, "a records offset of 15 is taken", |loader| loader.records_at = |at| at >= 15),
    (3, "a records offset of 16 is too low", |loader| loader.records_at = |at| at > 16),
    (3, "a gap before the code is taken", |loader| loader.code_at = |at, end| at >= end),
    (3, "code may overlap the records", |loader| loader.code_at = |at, end| at <= end),
    (3, "the code offset is right modulo 2^16", |loader| loader.code_at = |at, end| at == end % 65_536),
    (3, "bytes behind the code are taken", |loader| loader.file_end = |length, end| length >= end),
    (3, "code may be cut by the file's end", |loader| loader.file_end = |length, end| length <= end),
    (3, "the end is right modulo 2^16", |loader| loader.file_end = |length, end| length == end % 65_536),
    (3, "check 4 before check 3", |loader| loader.order.swap(2, 3)),
    (4, "entries may end before the records", |loader| loader.labels_end = |end, at| end <= at),
    (4, "entries may reach into the records", |loader| loader.labels_end = |end, at| end >= at),
    (4, "label 0 is not looked at", |loader| loader.looks_at_label = |index, _| index != 0),
    (4, "label 1 is not looked at", |loader| loader.looks_at_label = |index, _| index != 1),
    (4, "the last label is not looked at", |loader| {
        loader.looks_at_label = |index, labels| index + 1 != labels
    }),
    (4, "check 5 before check 4", |loader| loader.order.swap(3, 4)),
    (5, "any start is taken", |loader| loader.start = |_, _| true),
    (5, "no start but the clearance is taken", |loader| loader.start = |start, clearance| start == clearance),
    (5, "start and clearance must differ", |loader| {
        loader.start = |start, clearance| start != clearance && start.flows_to(clearance)
    }),
    (5, "the clearance flows to the start", |loader| {
        loader.start = |start, clearance| clearance.flows_to(start)
    }),
    (5, "secrecy alone is looked at", |loader| {
        loader.start = |start, clearance| clearance.secrecy.implies(start.secrecy)
    }),
    (5, "integrity alone is looked at", |loader| {
        loader.start = |start, clearance| start.integrity.implies(clearance.integrity)
    }),
    (5, "integrity is looked at in secrecy's direction", |loader| {
        loader.start = |start, clearance| {
            clearance.secrecy.implies(start.secrecy) && clearance.integrity.implies(start.integrity)
        }
    }),
    (5, "word 0 is not looked at", |loader| loader.start = flows_but_for::<0>),
    (5, "word 1 is not looked at", |loader| loader.start = flows_but_for::<1>),
    (5, "word 2 is not looked at", |loader| loader.start = flows_but_for::<2>),
    (5, "word 3 is not looked at", |loader| loader.start = flows_but_for::<3>),
    (5, "the lowest word alone is looked at", |loader| loader.start = flows_in_lowest_word),
    (5, "check 6 before check 5", |loader| loader.order.swap(4, 5)),
    (6, "kind 2 is taken", |loader| loader.kind = |kind| kind <= 2),
    (6, "kind 1 is not taken", |loader| loader.kind = |kind| kind == 0),
    (6, "kinds are not looked at", |loader| loader.kind = |_| true),
    (6, "label index L is taken", |loader| loader.record_label = |index, labels| index <= labels),
    (6, "label index L - 1 is not taken", |loader| loader.record_label = |index, labels| index + 1 < labels),
    (6, "label indices are held to 32", |loader| loader.record_label = |index, _| index < 32),
    (6, "the first record is not looked at", |loader| loader.looks_at_record = |index, _| index != 0),
    (6, "the last record is not looked at", |loader| {
        loader.looks_at_record = |index, records| index + 1 != records
    }),
    (6, "check 7 before check 6", |loader| loader.order.swap(5, 6)),
    (7, "opcode 1E is known", |loader| loader.opcode = |opcode| opcode <= 0x1E),
    (7, "opcode 1D is unknown", |loader| loader.opcode = |opcode| opcode < 0x1D),
    (7, "five bits of an opcode are looked at", |loader| loader.opcode = |opcode| opcode & 0x1F <= 0x1D),
    (7, "operands may be cut", |loader| loader.operands_cut = true),
    (7, "LAB L is taken", |loader| loader.label = |index, labels| index <= labels),
    (7, "LAB L - 1 is not taken", |loader| loader.label = |index, labels| index + 1 < labels),
    (7, "INPUT C is taken", |loader| loader.input = |index, records| index <= records),
    (7, "INPUT C - 1 is not taken", |loader| loader.input = |index, records| index + 1 < records),
    (7, "GET 16 is taken", |loader| loader.get = |local| local <= 16),
    (7, "GET 15 is not taken", |loader| loader.get = |local| local < 15),
    (7, "SET 16 is taken", |loader| loader.set = |local| local <= 16),
    (7, "SET 15 is not taken", |loader| loader.set = |local| local < 15),
    (7, "JUMP's target is not looked at", |loader| {
        loader.has_target = |opcode| matches!(opcode, IFZ | BLOCK | TRY)
    }),
    (7, "IFZ's target is not looked at", |loader| {
        loader.has_target = |opcode| matches!(opcode, JUMP | BLOCK | TRY)
    }),
    (7, "BLOCK's target is not looked at", |loader| {
        loader.has_target = |opcode| matches!(opcode, JUMP | IFZ | TRY)
    }),
    (7, "TRY's handler is not looked at", |loader| {
        loader.has_target = |opcode| matches!(opcode, JUMP | IFZ | BLOCK)
    }),
    (7, "a target inside an instruction is taken", |loader| loader.target = |target, _, code| target < code),
    (7, "a target at the code's end is taken", |loader| {
        loader.target = |target, starts, code| target == code || starts.contains(&target)
    }),
    (7, "a target past the code is taken", |loader| {
        loader.target = |target, starts, code| target > code || starts.contains(&target)
    }),
    (7, "one byte of a target is looked at", |loader| {
        loader.target = |target, starts, _| starts.contains(&(target % 256))
    }),
    (7, "no target is the last instruction", |loader| {
        loader.target = |target, starts, _| starts.contains(&target) && starts.last() != Some(&target)
    }),
    (7, "any last instruction is taken", |loader| loader.last = |_| true),
    (7, "the last instruction must be END", |loader| loader.last = |opcode| opcode == END),
    (7, "IFZ may be the last instruction", |loader| {
        loader.last = |opcode| matches!(opcode, END | JUMP | THROW | IFZ)
    }),
    (7, "code behind an END is not looked at", |loader| loader.stops = |opcode| opcode == END),
    (7, "code behind a THROW is not looked at", |loader| loader.stops = |opcode| opcode == THROW),
];
