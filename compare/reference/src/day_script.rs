//! Writing days, as [`crate::script`] writes plain files.

use crate::limits::{day_header, input, job};
use crate::script::{label_section, record_section, Clauses, Input};

/// The parts of a day, to be put together by [`DayScript::bytes`]. Nothing is
/// checked, so that days to be refused can be written too.
#[derive(Clone, Debug, Default)]
pub struct DayScript {
    pub labels: Vec<Clauses>,
    pub records: Vec<Input>,
    pub jobs: Vec<JobEntry>,
    pub code: Vec<u8>,
    pub steps: u32,
}

/// The fields of a job, in their order.
#[derive(Clone, Copy, Debug, PartialEq, Eq)]
pub struct JobEntry {
    pub caller: u8,
    pub label: u8,
    pub clearance: u8,
    pub zero: u8,
    pub steps: u16,
    pub places: u16,
    pub code_at: u16,
    pub code_length: u16,
}

impl JobEntry {
    fn bytes(&self) -> [u8; job::LENGTH] {
        let mut bytes = [0; job::LENGTH];
        bytes[job::CALLER] = self.caller;
        bytes[job::LABEL] = self.label;
        bytes[job::CLEARANCE] = self.clearance;
        bytes[job::ZERO] = self.zero;
        for (at, number) in [
            (job::STEPS, self.steps),
            (job::PLACES, self.places),
            (job::CODE_AT, self.code_at),
            (job::CODE_LENGTH, self.code_length),
        ] {
            bytes[at..at + 2].copy_from_slice(&number.to_le_bytes());
        }
        bytes
    }
}

impl DayScript {
    /// Puts `code` behind the code that there is and gives the span it takes.
    pub fn add_code(&mut self, code: &[u8]) -> (u16, u16) {
        let at = self.code.len() as u16;
        self.code.extend(code);
        (at, code.len() as u16)
    }

    pub fn bytes(&self) -> Vec<u8> {
        let labels = label_section(&self.labels);
        let records_at = day_header::LENGTH + labels.len();
        let jobs_at = records_at + input::LENGTH * self.records.len();
        let code_at = jobs_at + job::LENGTH * self.jobs.len();
        let mut bytes = Vec::with_capacity(code_at + self.code.len());
        for number in [
            self.labels.len(),
            day_header::LENGTH,
            self.records.len(),
            records_at,
            self.jobs.len(),
            jobs_at,
            self.code.len(),
            code_at,
        ] {
            bytes.extend((number as u16).to_le_bytes());
        }
        bytes.extend(self.steps.to_le_bytes());
        bytes.extend(labels);
        bytes.extend(record_section(&self.records));
        bytes.extend(self.jobs.iter().flat_map(JobEntry::bytes));
        bytes.extend(&self.code);
        bytes
    }
}
