//! Every number of the file's and the view's layout, in one place.

use std::ops::RangeInclusive;

/// Principals are numbered from 0: player, dealer, bench, archive, record company, guest,
/// hirer, repair desk. Before the last two came there were six, as there still are with the
/// feature `six`. Every width below follows from this number.
pub const PRINCIPALS: usize = if cfg!(feature = "six") { 6 } else { 8 };
/// How many sets of principals there are: a mask has a bit for each principal.
pub const MASKS: usize = 1 << PRINCIPALS;
/// The 64-bit words of a table, which has a bit for each set.
pub const WORDS: usize = MASKS / 64;
/// The most clauses none of which is a subset of another: all masks with half of the bits.
pub const MAX_CLAUSES: usize = masks_with(PRINCIPALS / 2);

const fn masks_with(bits: usize) -> usize {
    let (mut mask, mut count) = (0, 0);
    while mask < MASKS {
        if mask.count_ones() as usize == bits {
            count += 1;
        }
        mask += 1;
    }
    count
}

pub const MAX_LABELS: usize = 32;
pub const LABELS: RangeInclusive<usize> = 2..=MAX_LABELS;
pub const MAX_RECORDS: usize = 64;
pub const MAX_CODE: usize = 4096;
pub const CODE_BYTES: RangeInclusive<usize> = 1..=MAX_CODE;
pub const MAX_PLACES: usize = 256;

/// Values on the operand stack of one run.
pub const STACK: usize = 32;
pub const LOCALS: usize = 16;
/// Try frames of one run.
pub const FRAMES: usize = 8;
/// Blocks inside one another; the outermost run is not a block.
pub const NESTED_BLOCKS: usize = 8;

/// Byte offsets of the header's 16-bit numbers.
pub mod header {
    pub const LABEL_COUNT: usize = 0;
    pub const LABELS_AT: usize = 2;
    pub const RECORD_COUNT: usize = 4;
    pub const RECORDS_AT: usize = 6;
    pub const CODE_LENGTH: usize = 8;
    pub const CODE_AT: usize = 10;
    pub const STEPS: usize = 12;
    pub const PLACES: usize = 14;
    pub const LENGTH: usize = 16;
}

/// Byte offsets of a day's header: 16-bit numbers, and the steps in 32 bits.
pub mod day_header {
    pub const LABEL_COUNT: usize = 0;
    pub const LABELS_AT: usize = 2;
    pub const RECORD_COUNT: usize = 4;
    pub const RECORDS_AT: usize = 6;
    pub const JOB_COUNT: usize = 8;
    pub const JOBS_AT: usize = 10;
    pub const CODE_LENGTH: usize = 12;
    pub const CODE_AT: usize = 14;
    pub const STEPS: usize = 16;
    pub const LENGTH: usize = 20;
}

pub const MAX_JOBS: usize = 16;
pub const JOBS: RangeInclusive<usize> = 1..=MAX_JOBS;
/// Callers are numbered from 0.
pub const CALLERS: usize = 16;

/// Byte offsets within one job of a day.
pub mod job {
    pub const CALLER: usize = 0;
    pub const LABEL: usize = 1;
    pub const CLEARANCE: usize = 2;
    pub const ZERO: usize = 3;
    pub const STEPS: usize = 4;
    pub const PLACES: usize = 6;
    pub const CODE_AT: usize = 8;
    pub const CODE_LENGTH: usize = 10;
    pub const LENGTH: usize = 12;
}

/// The longest file that is looked at, plain or a day.
pub const MAX_FILE: usize = 65_535;

/// Byte offsets within one input record.
pub mod input {
    pub const KIND: usize = 0;
    pub const LABEL: usize = 1;
    pub const NUMBER: usize = 2;
    pub const LENGTH: usize = 6;
}

/// Bytes of a table in a view, and of what stands where a value may have one.
pub const TABLE: usize = 8 * WORDS;
/// Bytes of a label in a view: its two tables.
pub const LABEL: usize = 2 * TABLE;

/// Byte offsets within a value of a view.
pub mod value {
    pub const KIND: usize = 0;
    pub const FIRST: usize = 2;
    pub const SECOND: usize = FIRST + super::TABLE;
    pub const LENGTH: usize = SECOND + super::TABLE;
}

/// Byte offsets within a view.
pub mod view {
    pub const ENDING: usize = 0;
    pub const STEPS: usize = 2;
    pub const NEXT_PLACE: usize = 4;
    pub const SHOWN: usize = 6;
    pub const RECORDS_AT: usize = 8;
    pub const LENGTH: usize = 10;
    pub const RESULT: usize = 12;
    pub const LABEL: usize = RESULT + super::value::LENGTH;
    pub const CLEARANCE: usize = LABEL + super::LABEL;
    pub const RECORDS: usize = CLEARANCE + super::LABEL;
}

/// Byte offsets within one record of a view.
pub mod shown {
    pub const PLACE: usize = 0;
    pub const KIND: usize = 1;
    pub const LABEL: usize = 2;
    pub const VALUE: usize = LABEL + super::LABEL;
    pub const LENGTH: usize = VALUE + super::value::LENGTH;
}

/// The longest view: every place holds a record and every record is shown.
pub const MAX_VIEW: usize = view::RECORDS + shown::LENGTH * MAX_PLACES;
/// The most bytes that the views of a day take.
pub const MAX_DAY: usize = MAX_JOBS * MAX_VIEW;
