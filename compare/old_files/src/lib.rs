//! Files from before the last two principals came, read with six principals and with eight.
//! They load and run alike: the views tell the same, in other widths. Quotes are the same.

pub mod widen;

use reference::limits::{day_header, header, MAX_DAY, MAX_VIEW};

pub type Read = fn(&[u8], usize, &mut [u8]) -> Result<usize, u8>;

/// What a file is read as.
#[derive(Clone, Copy, Debug, PartialEq, Eq)]
pub enum Kind {
    Plain,
    Day,
}

impl Kind {
    /// The call with six principals, and the one with eight.
    pub fn reads(self) -> [Read; 2] {
        match self {
            Kind::Plain => [reference_six::read, reference::read],
            Kind::Day => [reference_six::read_day, reference::read_day],
        }
    }

    /// The count of labels that the file's header says; 0 if there is no header.
    fn labels(self, file: &[u8]) -> usize {
        let at = match self {
            Kind::Plain => header::LABEL_COUNT,
            Kind::Day => day_header::LABEL_COUNT,
        };
        file.get(at..at + 2).map_or(0, |count| u16::from_le_bytes([count[0], count[1]]).into())
    }

    /// Room for every view with eight principals.
    fn room(self) -> usize {
        match self {
            Kind::Plain => MAX_VIEW,
            Kind::Day => MAX_DAY,
        }
    }
}

/// How many files were read, for how many readers, and how many of those differ.
#[derive(Clone, Copy, Debug, Default, PartialEq, Eq)]
pub struct Comparison {
    pub files: u64,
    pub refused: u64,
    pub reads: u64,
    pub differences: u64,
}

impl Comparison {
    /// Reads an old file for every label it may have and one more, and has it quoted.
    pub fn add(&mut self, kind: Kind, file: &[u8]) {
        self.add_by(kind, kind.reads(), file);
        let six = reference_six::quote(file).map(|quote| (quote.steps, quote.places));
        let eight = reference::quote(file).map(|quote| (quote.steps, quote.places));
        self.differences += u64::from(six != eight);
    }

    /// The reads of [`Comparison::add`] by other calls.
    pub fn add_by(&mut self, kind: Kind, [six, eight]: [Read; 2], file: &[u8]) {
        self.files += 1;
        let mut refused = false;
        // A count that is outside its limits is refused, whatever it is.
        for reader in 0..=kind.labels(file).min(32) {
            let old = answer(six, file, reader, kind.room());
            refused |= old.as_ref().is_err_and(|&number| number != READER);
            self.reads += 1;
            let new = answer(eight, file, reader, kind.room());
            self.differences += u64::from(old.map(|views| widen::views(&views)) != new);
        }
        self.refused += u64::from(refused);
    }
}

/// The refusal of an index that is no label's.
const READER: u8 = 8;

/// The views that a call writes, or the number of the refusal.
fn answer(read: Read, file: &[u8], reader: usize, room: usize) -> Result<Vec<u8>, u8> {
    let mut buffer = vec![0; room];
    let length = read(file, reader, &mut buffer)?;
    buffer.truncate(length);
    Ok(buffer)
}

/// Whether the file loads with six principals, or is refused for another reason than its
/// labels. What is malformed with six need not be with eight.
pub fn is_old(kind: Kind, file: &[u8]) -> bool {
    let [six, _] = kind.reads();
    six(file, 0, &mut vec![0; kind.room()]) != Err(LABELS)
}

/// The refusal of malformed labels.
const LABELS: u8 = 4;
