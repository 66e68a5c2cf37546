//! The day: a file of up to 16 jobs on one set of records.

use crate::day_rules::DayRules;
use crate::limits::{day_header, job, CALLERS, JOBS, MAX_FILE};
use crate::opcode;
use crate::parts::{places, short, steps_hold, Job, Parts, Refusal, Sections};
use crate::rules::Paper;

/// A day whose header and labels are in order. Its jobs may not be.
#[derive(Clone, Debug)]
pub struct Day<'a> {
    pub parts: Parts<'a>,
    /// The limit to what each caller's own jobs are charged.
    pub steps: u32,
    jobs: &'a [u8],
}

impl<'a> Day<'a> {
    /// Checks 1, 2, 3, 4, 10, 6 and 7, in this order.
    pub fn parse(bytes: &'a [u8]) -> Result<Day<'a>, Refusal> {
        Day::parse_by(&Paper, bytes)
    }

    /// [`Day::parse`] by other rules than the paper's.
    pub fn parse_by<R: DayRules>(rules: &R, bytes: &'a [u8]) -> Result<Day<'a>, Refusal> {
        let day = Day::parse_parts_by(rules, bytes)?;
        day.check_jobs()?;
        day.parts.check_records()?;
        let (labels, records) = (day.parts.labels().len(), day.parts.record_count());
        let holds = |entry: Entry| {
            let (start, length) = entry.span();
            rules.code_holds(day.parts.code, start, length, |code| opcode::well_formed(code, labels, records))
        };
        if !day.entries().all(holds) {
            return Err(Refusal::Code);
        }
        Ok(day)
    }

    /// Checks 1 to 4: what has to hold before a record's label can be looked up.
    pub fn parse_parts(bytes: &'a [u8]) -> Result<Day<'a>, Refusal> {
        Day::parse_parts_by(&Paper, bytes)
    }

    fn parse_parts_by<R: DayRules>(rules: &R, bytes: &'a [u8]) -> Result<Day<'a>, Refusal> {
        if bytes.len() < day_header::LENGTH || bytes.len() > MAX_FILE {
            return Err(Refusal::Size);
        }
        let sections = sections(bytes);
        if !sections.counts_hold() {
            return Err(Refusal::Count);
        }
        let jobs_at = usize::from(short(bytes, day_header::JOBS_AT));
        let jobs_length = job::LENGTH * usize::from(short(bytes, day_header::JOB_COUNT));
        if jobs_at != sections.records_end() || !sections.layout_holds(jobs_length, bytes.len()) {
            return Err(Refusal::Layout);
        }
        let steps = *bytes[day_header::STEPS..].first_chunk().expect("the header is whole");
        Ok(Day {
            parts: sections.parts(rules, bytes)?,
            steps: u32::from_le_bytes(steps),
            jobs: &bytes[jobs_at..jobs_at + jobs_length],
        })
    }

    /// Check 10.
    fn check_jobs(&self) -> Result<(), Refusal> {
        let holds = JOBS.contains(&(self.jobs.len() / job::LENGTH))
            && self.entries().all(|entry| entry.fields_hold(&self.parts));
        holds.then_some(()).ok_or(Refusal::Jobs)
    }

    fn entries(&self) -> impl Iterator<Item = Entry<'a>> {
        self.jobs.chunks_exact(job::LENGTH).map(Entry)
    }

    /// The jobs of a day that stood up to check 10.
    pub fn jobs<'b, R: DayRules>(&'b self, rules: &'b R) -> impl Iterator<Item = Job<'a>> + 'b {
        self.entries().map(move |entry| {
            let (start, length) = entry.span();
            let (code, start) = rules.span(self.parts.code, start, length);
            let label = |at: usize| self.parts.labels()[entry.byte(at)];
            Job {
                caller: entry.0[job::CALLER],
                label: label(job::LABEL),
                clearance: label(job::CLEARANCE),
                steps: entry.short(job::STEPS),
                places: entry.short(job::PLACES),
                code,
                start,
            }
        })
    }
}

/// The bytes of a job.
struct Entry<'a>(&'a [u8]);

impl Entry<'_> {
    fn byte(&self, at: usize) -> usize {
        self.0[at].into()
    }

    fn short(&self, at: usize) -> u16 {
        short(self.0, at)
    }

    /// Where in the code section the job's own code starts, and its length.
    fn span(&self) -> (usize, usize) {
        (self.short(job::CODE_AT).into(), self.short(job::CODE_LENGTH).into())
    }

    fn fields_hold(&self, parts: &Parts) -> bool {
        let label = |at: usize| parts.labels().get(self.byte(at));
        let (Some(start), Some(&clearance)) = (label(job::LABEL), label(job::CLEARANCE)) else {
            return false;
        };
        let (code_at, code_length) = self.span();
        self.byte(job::CALLER) < CALLERS
            && self.0[job::ZERO] == 0
            && steps_hold(self.short(job::STEPS))
            && places(parts.record_count()).contains(&self.short(job::PLACES).into())
            && code_length > 0
            && code_at + code_length <= parts.code.len()
            && start.flows_to(clearance)
    }
}

fn sections(bytes: &[u8]) -> Sections {
    let number = |at: usize| short(bytes, at).into();
    Sections {
        header_length: day_header::LENGTH,
        label_count: number(day_header::LABEL_COUNT),
        labels_at: number(day_header::LABELS_AT),
        record_count: number(day_header::RECORD_COUNT),
        records_at: number(day_header::RECORDS_AT),
        code_length: number(day_header::CODE_LENGTH),
        code_at: number(day_header::CODE_AT),
    }
}
