//! The plain file: one script. The lowest refusal that applies is given.

use crate::limits::{header, MAX_FILE};
use crate::opcode::{self, Starts};
use crate::parts::{places, short, steps_hold, Job, Parts, Refusal, Sections};
use crate::rules::{Paper, Rules};

/// A file whose header and labels are in order.
#[derive(Clone, Debug)]
pub struct File<'a> {
    pub parts: Parts<'a>,
    pub job: Job<'a>,
}

impl<'a> File<'a> {
    /// Checks 1 to 7.
    pub fn parse(bytes: &'a [u8]) -> Result<File<'a>, Refusal> {
        File::parse_by(&Paper, bytes)
    }

    /// [`File::parse`] by other rules than the paper's.
    pub fn parse_by<R: Rules>(rules: &R, bytes: &'a [u8]) -> Result<File<'a>, Refusal> {
        File::parse_with_starts(rules, bytes).map(|(file, _)| file)
    }

    /// [`File::parse_by`], and where the instructions start, which check 7 finds.
    pub fn parse_with_starts<R: Rules>(rules: &R, bytes: &'a [u8]) -> Result<(File<'a>, Starts), Refusal> {
        let file = File::parse_parts_by(rules, bytes)?;
        let File { parts, job } = &file;
        if !job.label.flows_to(job.clearance) {
            return Err(Refusal::Start);
        }
        parts.check_records()?;
        let starts = opcode::starts(parts.code, parts.labels().len(), parts.record_count());
        Ok((file, starts.ok_or(Refusal::Code)?))
    }

    /// Checks 1 to 4: what has to hold before a record's label can be looked up.
    pub fn parse_parts(bytes: &'a [u8]) -> Result<File<'a>, Refusal> {
        File::parse_parts_by(&Paper, bytes)
    }

    fn parse_parts_by<R: Rules>(rules: &R, bytes: &'a [u8]) -> Result<File<'a>, Refusal> {
        if bytes.len() < header::LENGTH || bytes.len() > MAX_FILE {
            return Err(Refusal::Size);
        }
        let sections = sections(bytes);
        let (steps, allotted) = (short(bytes, header::STEPS), short(bytes, header::PLACES));
        let counts_hold = sections.counts_hold()
            && steps_hold(steps)
            && places(sections.record_count).contains(&allotted.into());
        if !counts_hold {
            return Err(Refusal::Count);
        }
        if !sections.layout_holds(0, bytes.len()) {
            return Err(Refusal::Layout);
        }
        let parts = sections.parts(rules, bytes)?;
        let (label, clearance) = (parts.labels()[0], parts.labels()[1]);
        let job = Job { caller: 0, label, clearance, steps, places: allotted, code: parts.code, start: 0 };
        Ok(File { parts, job })
    }
}

fn sections(bytes: &[u8]) -> Sections {
    let number = |at: usize| short(bytes, at).into();
    Sections {
        header_length: header::LENGTH,
        label_count: number(header::LABEL_COUNT),
        labels_at: number(header::LABELS_AT),
        record_count: number(header::RECORD_COUNT),
        records_at: number(header::RECORDS_AT),
        code_length: number(header::CODE_LENGTH),
        code_at: number(header::CODE_AT),
    }
}
