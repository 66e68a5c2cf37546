//! A loader whose rules can be changed one by one. It is the paper's list of
//! refusals 1 to 7, each a test of the whole file whatever the others find.

use reference::label::Label;
use reference::limits::{header, input};
use reference::opcode::*;
use reference::table::Table;
use std::collections::BTreeSet;
use std::ops::RangeInclusive;

/// The rules of the loader.
#[derive(Clone, Debug)]
pub struct Loader {
    /// The order in which the refusals are looked for.
    pub order: [u8; 7],
    pub length: RangeInclusive<usize>,
    pub labels: RangeInclusive<usize>,
    pub records: RangeInclusive<usize>,
    pub code: RangeInclusive<usize>,
    pub steps: RangeInclusive<usize>,
    pub fewest_places: fn(records: usize) -> usize,
    pub most_places: usize,
    pub labels_at: fn(usize) -> bool,
    pub records_at: fn(usize) -> bool,
    pub code_at: fn(code_at: usize, records_end: usize) -> bool,
    pub file_end: fn(length: usize, code_end: usize) -> bool,
    pub secrecy: fn(masks: &[u8]) -> bool,
    pub integrity: fn(masks: &[u8]) -> bool,
    /// Whether the masks of a label are looked at.
    pub looks_at_label: fn(index: usize, labels: usize) -> bool,
    pub labels_end: fn(end: usize, records_at: usize) -> bool,
    pub start: fn(Label, Label) -> bool,
    pub kind: fn(u8) -> bool,
    pub record_label: fn(index: usize, labels: usize) -> bool,
    /// Whether a record is looked at.
    pub looks_at_record: fn(index: usize, records: usize) -> bool,
    pub opcode: fn(u8) -> bool,
    /// Whether an operand may be cut, and reads as 0 then.
    pub operands_cut: bool,
    pub label: fn(index: usize, labels: usize) -> bool,
    pub input: fn(index: usize, records: usize) -> bool,
    pub get: fn(local: u8) -> bool,
    pub set: fn(local: u8) -> bool,
    pub has_target: fn(opcode: u8) -> bool,
    pub target: fn(target: usize, starts: &BTreeSet<usize>, code: usize) -> bool,
    pub last: fn(opcode: u8) -> bool,
    /// Whether nothing behind an instruction is looked at.
    pub stops: fn(opcode: u8) -> bool,
}

/// The paper's rules.
pub const PAPER: Loader = Loader {
    order: [1, 2, 3, 4, 5, 6, 7],
    length: 16..=65_535,
    labels: 2..=32,
    records: 0..=64,
    code: 1..=4096,
    steps: 1..=65_535,
    fewest_places: |records| records,
    most_places: 256,
    labels_at: |at| at == 16,
    records_at: |at| at >= 16,
    code_at: |code_at, records_end| code_at == records_end,
    file_end: |length, code_end| length == code_end,
    secrecy: well_formed,
    integrity: well_formed,
    looks_at_label: |_, _| true,
    labels_end: |end, records_at| end == records_at,
    start: |start, clearance| start.flows_to(clearance),
    kind: |kind| kind <= 1,
    record_label: |index, labels| index < labels,
    looks_at_record: |_, _| true,
    opcode: |opcode| opcode <= 0x1D,
    operands_cut: false,
    label: |index, labels| index < labels,
    input: |index, records| index < records,
    get: |local| local <= 15,
    set: |local| local <= 15,
    has_target: |opcode| matches!(opcode, JUMP | IFZ | BLOCK | TRY),
    target: |target, starts, _| starts.contains(&target),
    last: |opcode| matches!(opcode, END | JUMP | THROW),
    stops: |_| false,
};

/// The header's numbers; those past the file's end are 0.
pub struct Header {
    pub labels: usize,
    pub labels_at: usize,
    pub records: usize,
    pub records_at: usize,
    pub code: usize,
    pub code_at: usize,
    pub steps: usize,
    pub places: usize,
}

impl Header {
    pub fn of(file: &[u8]) -> Header {
        let byte = |at: usize| usize::from(file.get(at).copied().unwrap_or(0));
        let field = |at: usize| byte(at) + 256 * byte(at + 1);
        Header {
            labels: field(header::LABEL_COUNT),
            labels_at: field(header::LABELS_AT),
            records: field(header::RECORD_COUNT),
            records_at: field(header::RECORDS_AT),
            code: field(header::CODE_LENGTH),
            code_at: field(header::CODE_AT),
            steps: field(header::STEPS),
            places: field(header::PLACES),
        }
    }
}

impl Loader {
    /// The refusal that is returned, or `None` if the file loads.
    pub fn refusal(&self, file: &[u8]) -> Option<u8> {
        let header = Header::of(file);
        self.order.into_iter().find(|&number| self.applies(number, file, &header))
    }

    /// Whether there is a reason for the refusal, whatever others there are.
    pub fn applies(&self, number: u8, file: &[u8], header: &Header) -> bool {
        let holds = match number {
            1 => self.length.contains(&file.len()),
            2 => self.counts_hold(header),
            3 => self.layout_holds(file, header),
            4 => self.labels_hold(file, header, header::LENGTH),
            5 => self.start_holds(file),
            6 => self.records_hold(file, header),
            _ => self.code_holds(part(file, header.code_at, header.code), header),
        };
        !holds
    }

    pub fn counts_hold(&self, header: &Header) -> bool {
        self.labels.contains(&header.labels)
            && self.records.contains(&header.records)
            && self.code.contains(&header.code)
            && self.steps.contains(&header.steps)
            && ((self.fewest_places)(header.records)..=self.most_places).contains(&header.places)
    }

    fn layout_holds(&self, file: &[u8], header: &Header) -> bool {
        (self.labels_at)(header.labels_at)
            && (self.records_at)(header.records_at)
            && (self.code_at)(header.code_at, header.records_at + input::LENGTH * header.records)
            && (self.file_end)(file.len(), header.code_at + header.code)
    }

    /// Check 4 for labels that start at `first`.
    pub fn labels_hold(&self, file: &[u8], header: &Header, first: usize) -> bool {
        let mut at = first;
        for index in 0..header.labels {
            let Some((secrecy, integrity)) = entry(file, at) else { return false };
            let holds = (self.secrecy)(secrecy) && (self.integrity)(integrity);
            if !holds && (self.looks_at_label)(index, header.labels) {
                return false;
            }
            at += 2 + secrecy.len() + integrity.len();
        }
        (self.labels_end)(at, header.records_at)
    }

    /// Labels that can't be read are no reason for this refusal.
    fn start_holds(&self, file: &[u8]) -> bool {
        let Some((secrecy, integrity)) = entry(file, header::LENGTH) else { return true };
        let start = Label { secrecy: table(secrecy), integrity: table(integrity) };
        let second = header::LENGTH + 2 + secrecy.len() + integrity.len();
        let Some((secrecy, integrity)) = entry(file, second) else { return true };
        (self.start)(start, Label { secrecy: table(secrecy), integrity: table(integrity) })
    }

    pub fn records_hold(&self, file: &[u8], header: &Header) -> bool {
        let bytes = part(file, header.records_at, input::LENGTH * header.records);
        bytes.chunks_exact(input::LENGTH).enumerate().all(|(index, record)| {
            let holds = (self.kind)(record[input::KIND])
                && (self.record_label)(record[input::LABEL].into(), header.labels);
            holds || !(self.looks_at_record)(index, header.records)
        })
    }

    pub fn code_holds(&self, code: &[u8], header: &Header) -> bool {
        let Some(starts) = self.sweep(code, header) else { return false };
        let targets_hold = starts.iter().filter(|&&at| (self.has_target)(code[at])).all(|&at| {
            let byte = |at: usize| usize::from(code.get(at).copied().unwrap_or(0));
            (self.target)(byte(at + 1) + 256 * byte(at + 2), &starts, code.len())
        });
        targets_hold && starts.last().is_some_and(|&at| (self.last)(code[at]))
    }

    /// Where instructions start, if each is in order but for its target.
    fn sweep(&self, code: &[u8], header: &Header) -> Option<BTreeSet<usize>> {
        let mut starts = BTreeSet::new();
        let mut at = 0;
        while at < code.len() {
            let opcode = code[at];
            let length = SHAPES.get(opcode as usize).map_or(1, |shape| shape.length);
            let whole = at + length <= code.len() || self.operands_cut;
            let operand = code.get(at + 1).copied().unwrap_or(0);
            if !(self.opcode)(opcode) || !whole || !self.operand_holds(opcode, operand, header) {
                return None;
            }
            starts.insert(at);
            at += length;
            if (self.stops)(opcode) {
                break;
            }
        }
        Some(starts)
    }

    fn operand_holds(&self, opcode: u8, operand: u8, header: &Header) -> bool {
        match opcode {
            LAB => (self.label)(operand.into(), header.labels),
            INPUT => (self.input)(operand.into(), header.records),
            GET => (self.get)(operand),
            SET => (self.set)(operand),
            _ => true,
        }
    }
}

/// So many bytes of the file, or those of them that there are.
pub fn part(file: &[u8], at: usize, length: usize) -> &[u8] {
    let end = (at + length).min(file.len());
    file.get(at..end).unwrap_or(&[])
}

/// The masks of the entry at `at`, unless the file cuts it.
pub fn entry(file: &[u8], at: usize) -> Option<(&[u8], &[u8])> {
    let (&[secrecy, integrity], rest) = file.get(at..)?.split_first_chunk()?;
    let (secrecy, rest) = rest.split_at_checked(secrecy.into())?;
    Some((secrecy, rest.get(..integrity.into())?))
}

/// The table of any masks, well formed or not.
pub fn table(masks: &[u8]) -> Table {
    Table::of(|set| masks.iter().all(|&mask| usize::from(mask) & set != 0))
}

pub fn ascends(masks: &[u8]) -> bool {
    masks.windows(2).all(|two| two[0] < two[1])
}

pub fn is_subset(one: u8, other: u8) -> bool {
    one & other == one
}

/// Whether no mask is a subset of a later one.
pub fn subset_free(masks: &[u8]) -> bool {
    (0..masks.len()).all(|at| masks[at + 1..].iter().all(|&later| !is_subset(masks[at], later)))
}

pub fn at_most(masks: &[u8], highest: u8) -> bool {
    masks.iter().all(|&mask| mask <= highest)
}

/// No longer list keeps the other rules, so the limit of 70 can't be missed. Nor can that of
/// 255, as a mask is a byte.
pub fn well_formed(masks: &[u8]) -> bool {
    masks.len() <= 70 && ascends(masks) && subset_free(masks)
}
