//! Loaders of days with one rule wrong.

use crate::day_loader::{DayLoader, PAPER};
use crate::words::{flows_but_for, flows_in_lowest_word};

pub struct WrongDayLoader {
    /// The check whose rule is wrong; of two in the wrong order, the first.
    pub check: u8,
    /// What it does instead of the papers' rule.
    pub says: &'static str,
    pub loader: DayLoader,
}

pub fn all() -> Vec<WrongDayLoader> {
    let wrong = |&(check, says, change): &Rule| {
        let mut loader = PAPER;
        change(&mut loader);
        WrongDayLoader { check, says, loader }
    };
    [ORDER, HEADER, LAYOUT, JOBS, SPANS, STARTS, CODE].concat().iter().map(wrong).collect()
}

type Rule = (u8, &'static str, fn(&mut DayLoader));

const ORDER: &[Rule] = &[
    (1, "2 is tried before 1", |loader| loader.order = [2, 1, 3, 4, 10, 6, 7]),
    (2, "3 is tried before 2", |loader| loader.order = [1, 3, 2, 4, 10, 6, 7]),
    (3, "4 is tried before 3", |loader| loader.order = [1, 2, 4, 3, 10, 6, 7]),
    (3, "10 is tried before 3", |loader| loader.order = [1, 2, 10, 3, 4, 6, 7]),
    (4, "10 is tried before 4", |loader| loader.order = [1, 2, 3, 10, 4, 6, 7]),
    (10, "10 is tried after 6", |loader| loader.order = [1, 2, 3, 4, 6, 10, 7]),
    (10, "10 is tried after 7", |loader| loader.order = [1, 2, 3, 4, 6, 7, 10]),
    (6, "7 is tried before 6", |loader| loader.order = [1, 2, 3, 4, 10, 7, 6]),
    (4, "6 is tried before 4", |loader| loader.order = [1, 2, 3, 6, 4, 10, 7]),
];

const HEADER: &[Rule] = &[
    (1, "16 bytes are enough", |loader| loader.length = 16..=65_535),
    (1, "19 bytes are enough", |loader| loader.length = 19..=65_535),
    (1, "20 bytes are too few", |loader| loader.length = 21..=65_535),
    (1, "65,535 bytes are too many", |loader| loader.length = 20..=65_534),
    (1, "65,536 bytes are taken", |loader| loader.length = 20..=65_536),
    (2, "1 label is taken", |loader| loader.common.labels = 1..=32),
    (2, "2 labels are too few", |loader| loader.common.labels = 3..=32),
    (2, "32 labels are too many", |loader| loader.common.labels = 2..=31),
    (2, "33 labels are taken", |loader| loader.common.labels = 2..=33),
    (2, "64 records are too many", |loader| loader.common.records = 0..=63),
    (2, "65 records are taken", |loader| loader.common.records = 0..=65),
    (2, "a day needs a record", |loader| loader.common.records = 1..=64),
    (2, "no code is taken", |loader| loader.common.code = 0..=4096),
    (2, "4096 bytes of code are too many", |loader| loader.common.code = 1..=4095),
    (2, "4097 bytes of code are taken", |loader| loader.common.code = 1..=4097),
    (2, "no jobs are refused by check 2", |loader| loader.counted_jobs = |jobs| jobs >= 1),
    (2, "17 jobs are refused by check 2", |loader| loader.counted_jobs = |jobs| jobs <= 16),
    (2, "a day of no steps is refused", |loader| loader.day_steps = |steps| steps > 0),
    (2, "a day of over 65,535 steps is refused", |loader| loader.day_steps = |steps| steps < 65_536),
];

const LAYOUT: &[Rule] = &[
    (3, "labels may start at 16", |loader| loader.labels_at = |at| at == 20 || at == 16),
    (3, "the labels' offset is not looked at", |loader| loader.labels_at = |_| true),
    (3, "records may start in the header", |loader| loader.records_at = |at| at >= 16),
    (3, "the jobs' offset is not looked at", |loader| loader.jobs_at = |_, _| true),
    (3, "there may be a gap before the jobs", |loader| loader.jobs_at = |at, end| at >= end),
    (3, "the jobs' offset is a sum modulo 2^16", |loader| loader.jobs_at = |at, end| at == end % 65_536),
    (3, "the code's offset is not looked at", |loader| loader.code_at = |_, _| true),
    (3, "there may be a gap before the code", |loader| loader.code_at = |at, end| at >= end),
    (3, "the code may start among the jobs", |loader| loader.code_at = |at, end| at <= end),
    (3, "the code's offset is a sum modulo 2^16", |loader| loader.code_at = |at, end| at == end % 65_536),
    (3, "there may be bytes behind the code", |loader| loader.file_end = |length, end| length >= end),
    (3, "the code may be cut", |loader| loader.file_end = |length, end| length <= end),
    (3, "the file's end is a sum modulo 2^16", |loader| {
        loader.file_end = |length, end| length == end % 65_536;
    }),
];

const JOBS: &[Rule] = &[
    (10, "no jobs are taken", |loader| loader.jobs = 0..=16),
    (10, "1 job is too few", |loader| loader.jobs = 2..=16),
    (10, "16 jobs are too many", |loader| loader.jobs = 1..=15),
    (10, "17 jobs are taken", |loader| loader.jobs = 1..=17),
    (10, "any count of jobs is taken", |loader| loader.jobs = 0..=usize::MAX),
    (10, "caller 15 is too high", |loader| loader.caller = |caller| caller < 15),
    (10, "caller 16 is taken", |loader| loader.caller = |caller| caller <= 16),
    (10, "callers are not looked at", |loader| loader.caller = |_| true),
    (10, "a start label L is taken", |loader| loader.label = |index, labels| index <= labels),
    (10, "start labels are not looked at", |loader| loader.label = |_, _| true),
    (10, "the last label is no start", |loader| loader.label = |index, labels| index + 1 < labels),
    (10, "a clearance L is taken", |loader| loader.clearance = |index, labels| index <= labels),
    (10, "clearances are not looked at", |loader| loader.clearance = |_, _| true),
    (10, "the last label is no clearance", |loader| loader.clearance = |index, labels| index + 1 < labels),
    (10, "the zero byte is not looked at", |loader| loader.zero = |_| true),
    (10, "the zero byte may be 1", |loader| loader.zero = |zero| zero <= 1),
    (10, "no steps are taken", |loader| loader.steps = |_| true),
    (10, "65,535 steps are too many", |loader| loader.steps = |steps| (1..65_535).contains(&steps)),
    (10, "fewer places than records are taken", |loader| loader.places = |places, _| places <= 256),
    (10, "there must be more places than records", |loader| {
        loader.places = |places, records| records < places && places <= 256;
    }),
    (10, "256 places are too many", |loader| {
        loader.places = |places, records| records <= places && places < 256;
    }),
    (10, "257 places are taken", |loader| {
        loader.places = |places, records| records <= places && places <= 257;
    }),
    (10, "only the first job is looked at", |loader| loader.looks_at_job = |index, _| index == 0),
    (10, "the first job is not looked at", |loader| loader.looks_at_job = |index, _| index > 0),
    (10, "the last job is not looked at", |loader| loader.looks_at_job = |index, jobs| index + 1 < jobs),
];

const SPANS: &[Rule] = &[
    (10, "a span of 0 bytes is taken", |loader| loader.span = |at, length, code| at + length <= code),
    (10, "a span may end one past the code", |loader| {
        loader.span = |at, length, code| length >= 1 && at + length <= code + 1;
    }),
    (10, "a span may not reach the code's end", |loader| {
        loader.span = |at, length, code| length >= 1 && at + length < code;
    }),
    (10, "a span's end is a sum modulo 2^16", |loader| {
        loader.span = |at, length, code| length >= 1 && (at + length) % 65_536 <= code;
    }),
    (10, "a span's start alone is looked at", |loader| {
        loader.span = |at, length, code| length >= 1 && at < code;
    }),
    (10, "a span's length alone is looked at", |loader| {
        loader.span = |_, length, code| (1..=code).contains(&length);
    }),
];

const STARTS: &[Rule] = &[
    (10, "starts are not looked at", |loader| loader.start = |_, _| true),
    (10, "secrecy alone has to flow", |loader| {
        loader.start = |label, clearance| clearance.secrecy.implies(label.secrecy);
    }),
    (10, "integrity alone has to flow", |loader| {
        loader.start = |label, clearance| label.integrity.implies(clearance.integrity);
    }),
    (10, "the clearance has to flow to the start", |loader| {
        loader.start = |label, clearance| clearance.flows_to(label);
    }),
    (10, "start and clearance must differ", |loader| {
        loader.start = |label, clearance| label != clearance && label.flows_to(clearance);
    }),
    (10, "word 0 does not have to flow", |loader| loader.start = flows_but_for::<0>),
    (10, "word 1 does not have to flow", |loader| loader.start = flows_but_for::<1>),
    (10, "word 2 does not have to flow", |loader| loader.start = flows_but_for::<2>),
    (10, "word 3 does not have to flow", |loader| loader.start = flows_but_for::<3>),
    (10, "the lowest word alone has to flow", |loader| loader.start = flows_in_lowest_word),
];

const CODE: &[Rule] = &[
    (7, "check 7 is on the whole code", |loader| loader.checked = |_, _, code| (0, code)),
    (7, "check 7 goes on to the code's end", |loader| loader.checked = |at, _, code| (at, code - at)),
    (7, "check 7 starts at the code's start", |loader| loader.checked = |at, length, _| (0, at + length)),
    (7, "check 7 is on the first job alone", |loader| loader.looks_at_code = |index, _| index == 0),
    (7, "check 7 is on the last job alone", |loader| loader.looks_at_code = |index, jobs| index + 1 == jobs),
    (7, "check 7 leaves the last instruction out", |loader| loader.common.last = |_| true),
    (7, "check 7 leaves targets out", |loader| loader.common.has_target = |_| false),
    (7, "operands may be cut", |loader| loader.common.operands_cut = true),
    (7, "a target may be any byte of the span", |loader| {
        loader.common.target = |target, _, code| target < code;
    }),
    (7, "a target may be the span's end", |loader| {
        loader.common.target = |target, starts, code| starts.contains(&target) || target == code;
    }),
];
