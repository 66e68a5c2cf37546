//! A loader of days whose rules can be changed one by one. It is the papers' list
//! of refusals 1, 2, 3, 4, 10, 6 and 7, each a test of the whole file whatever the
//! others find. What plain files have too is [`crate::loader`]'s.

use crate::loader::{self, entry, part, table, Header, Loader};
use reference::label::Label;
use reference::limits::{day_header, input, job};
use std::ops::RangeInclusive;

/// The rules of the loader.
#[derive(Clone, Debug)]
pub struct DayLoader {
    /// The order in which the refusals are looked for.
    pub order: [u8; 7],
    pub length: RangeInclusive<usize>,
    /// The rules for labels, records, code and their counts.
    pub common: Loader,
    /// Whether check 2 takes the count of jobs, and the day's steps.
    pub counted_jobs: fn(usize) -> bool,
    pub day_steps: fn(u32) -> bool,
    pub labels_at: fn(usize) -> bool,
    pub records_at: fn(usize) -> bool,
    pub jobs_at: fn(jobs_at: usize, records_end: usize) -> bool,
    pub code_at: fn(code_at: usize, jobs_end: usize) -> bool,
    pub file_end: fn(length: usize, code_end: usize) -> bool,
    pub jobs: RangeInclusive<usize>,
    pub caller: fn(u8) -> bool,
    pub label: fn(index: usize, labels: usize) -> bool,
    pub clearance: fn(index: usize, labels: usize) -> bool,
    pub zero: fn(u8) -> bool,
    pub steps: fn(usize) -> bool,
    pub places: fn(places: usize, records: usize) -> bool,
    pub span: fn(at: usize, length: usize, code: usize) -> bool,
    /// What has to flow to what, of the job's labels and the first two.
    pub start: fn(label: Label, clearance: Label) -> bool,
    /// Whether check 10, or check 7, looks at a job.
    pub looks_at_job: fn(index: usize, jobs: usize) -> bool,
    pub looks_at_code: fn(index: usize, jobs: usize) -> bool,
    /// The part of the code that check 7 is made on.
    pub checked: fn(at: usize, length: usize, code: usize) -> (usize, usize),
}

/// The papers' rules.
pub const PAPER: DayLoader = DayLoader {
    order: [1, 2, 3, 4, 10, 6, 7],
    length: 20..=65_535,
    common: loader::PAPER,
    counted_jobs: |_| true,
    day_steps: |_| true,
    labels_at: |at| at == 20,
    records_at: |at| at >= 20,
    jobs_at: |jobs_at, records_end| jobs_at == records_end,
    code_at: |code_at, jobs_end| code_at == jobs_end,
    file_end: |length, code_end| length == code_end,
    jobs: 1..=16,
    caller: |caller| caller <= 15,
    label: |index, labels| index < labels,
    clearance: |index, labels| index < labels,
    zero: |zero| zero == 0,
    steps: |steps| steps >= 1,
    places: |places, records| records <= places && places <= 256,
    span: |at, length, code| length >= 1 && at + length <= code,
    start: |label, clearance| label.flows_to(clearance),
    looks_at_job: |_, _| true,
    looks_at_code: |_, _| true,
    checked: |at, length, _| (at, length),
};

/// A day and the numbers of its header; those past the file's end are 0.
struct Day<'a> {
    file: &'a [u8],
    header: Header,
    jobs: usize,
    jobs_at: usize,
    steps: u32,
}

impl Day<'_> {
    fn of(file: &[u8]) -> Day<'_> {
        let byte = |at: usize| usize::from(file.get(at).copied().unwrap_or(0));
        let field = |at: usize| byte(at) + 256 * byte(at + 1);
        let records = field(day_header::RECORD_COUNT);
        let header = Header {
            labels: field(day_header::LABEL_COUNT),
            labels_at: field(day_header::LABELS_AT),
            records,
            records_at: field(day_header::RECORDS_AT),
            code: field(day_header::CODE_LENGTH),
            code_at: field(day_header::CODE_AT),
            // These are the jobs', and within the limits of a plain file.
            steps: 1,
            places: records,
        };
        let steps = field(day_header::STEPS) as u32 + 65_536 * field(day_header::STEPS + 2) as u32;
        let (jobs, jobs_at) = (field(day_header::JOB_COUNT), field(day_header::JOBS_AT));
        Day { file, header, jobs, jobs_at, steps }
    }

    fn jobs(&self) -> impl Iterator<Item = (usize, &[u8])> {
        part(self.file, self.jobs_at, job::LENGTH * self.jobs).chunks_exact(job::LENGTH).enumerate()
    }

    /// The label with this index, unless it can't be read.
    fn label(&self, index: usize) -> Option<Label> {
        let mut at = day_header::LENGTH;
        for _ in 0..index {
            let (secrecy, integrity) = entry(self.file, at)?;
            at += 2 + secrecy.len() + integrity.len();
        }
        let (secrecy, integrity) = entry(self.file, at)?;
        Some(Label { secrecy: table(secrecy), integrity: table(integrity) })
    }
}

fn field(job: &[u8], at: usize) -> usize {
    usize::from(job[at]) + 256 * usize::from(job[at + 1])
}

impl DayLoader {
    /// The refusal that is returned, or `None` if the day loads.
    pub fn refusal(&self, file: &[u8]) -> Option<u8> {
        let day = Day::of(file);
        self.order.into_iter().find(|&number| self.applies(number, &day))
    }

    fn applies(&self, number: u8, day: &Day) -> bool {
        let holds = match number {
            1 => self.length.contains(&day.file.len()),
            2 => {
                self.common.counts_hold(&day.header)
                    && (self.counted_jobs)(day.jobs)
                    && (self.day_steps)(day.steps)
            }
            3 => self.layout_holds(day),
            4 => self.common.labels_hold(day.file, &day.header, day_header::LENGTH),
            10 => self.jobs_hold(day),
            6 => self.common.records_hold(day.file, &day.header),
            _ => self.code_holds(day),
        };
        !holds
    }

    fn layout_holds(&self, day: &Day) -> bool {
        let header = &day.header;
        (self.labels_at)(header.labels_at)
            && (self.records_at)(header.records_at)
            && (self.jobs_at)(day.jobs_at, header.records_at + input::LENGTH * header.records)
            && (self.code_at)(header.code_at, day.jobs_at + job::LENGTH * day.jobs)
            && (self.file_end)(day.file.len(), header.code_at + header.code)
    }

    fn jobs_hold(&self, day: &Day) -> bool {
        let looked_at = |index: usize| (self.looks_at_job)(index, day.jobs);
        self.jobs.contains(&day.jobs)
            && day.jobs().all(|(index, job)| self.job_holds(day, job) || !looked_at(index))
    }

    fn job_holds(&self, day: &Day, job: &[u8]) -> bool {
        let (label, clearance) = (job[job::LABEL].into(), job[job::CLEARANCE].into());
        let header = &day.header;
        // Labels that can't be read are no reason for this refusal.
        let starts = match (day.label(label), day.label(clearance)) {
            (Some(label), Some(clearance)) => (self.start)(label, clearance),
            _ => true,
        };
        (self.caller)(job[job::CALLER])
            && (self.label)(label, header.labels)
            && (self.clearance)(clearance, header.labels)
            && (self.zero)(job[job::ZERO])
            && (self.steps)(field(job, job::STEPS))
            && (self.places)(field(job, job::PLACES), header.records)
            && (self.span)(field(job, job::CODE_AT), field(job, job::CODE_LENGTH), header.code)
            && starts
    }

    fn code_holds(&self, day: &Day) -> bool {
        let section = part(day.file, day.header.code_at, day.header.code);
        day.jobs().all(|(index, job)| {
            let (at, length) = (field(job, job::CODE_AT), field(job, job::CODE_LENGTH));
            let (at, length) = (self.checked)(at, length, section.len());
            !(self.looks_at_code)(index, day.jobs)
                || self.common.code_holds(part(section, at, length), &day.header)
        })
    }
}
