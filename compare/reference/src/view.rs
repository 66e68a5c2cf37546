//! The view: what a reading label is shown of a finished run.

use crate::label::Label;
use crate::limits::{shown, value, view, LABEL, TABLE, WORDS};
use crate::machine::Finished;
use crate::parts::Refusal;
use crate::rules::{Field, Rules, TableOf};
use crate::value::{Content, Ending, Record, Value};

/// Writes the view into the front of `buffer` and gives its length. A buffer
/// that is too short is left alone.
pub fn write<R: Rules>(
    finished: &Finished,
    reader: Label,
    buffer: &mut [u8],
    rules: &R,
) -> Result<usize, Refusal> {
    let count = Count::new(finished, reader, rules);
    let length = count.length();
    let view = buffer.get_mut(..length).ok_or(Refusal::Buffer)?;
    fill(finished, count, reader, view, rules);
    Ok(length)
}

/// The view.
pub fn bytes<R: Rules>(finished: &Finished, reader: Label, rules: &R) -> Vec<u8> {
    let count = Count::new(finished, reader, rules);
    let mut view = vec![0; count.length()];
    fill(finished, count, reader, &mut view, rules);
    view
}

/// How many records there are, and how many of them are shown.
struct Count {
    all: usize,
    shown: usize,
}

impl Count {
    fn new<R: Rules>(finished: &Finished, reader: Label, rules: &R) -> Count {
        let mut count = Count { all: 0, shown: 0 };
        for (_, record) in finished.store.iter() {
            count.all += 1;
            count.shown += usize::from(rules.shows(record.label, finished.label, reader));
        }
        count
    }

    fn length(&self) -> usize {
        view::RECORDS + shown::LENGTH * self.shown
    }
}

/// Writes every byte of `view`, which has the view's length.
fn fill<R: Rules>(finished: &Finished, count: Count, reader: Label, view: &mut [u8], rules: &R) {
    let (head, records) = view.split_at_mut(view::RECORDS);
    write_run(finished, reader, head, rules);
    put(head, view::SHOWN, &rules.short_bytes(rules.counted(count.shown, count.all) as u16));
    put(head, view::RECORDS_AT, &rules.short_bytes(rules.records_at() as u16));
    put(head, view::LENGTH, &rules.short_bytes(rules.length(count.shown) as u16));
    let shows = |record: &Record| rules.shows(record.label, finished.label, reader);
    let shown_records = finished.store.iter().filter(|(_, record)| shows(record));
    for (index, (place, record)) in shown_records.enumerate() {
        let part = &mut records[rules.record_at(index)..][..shown::LENGTH];
        part[shown::PLACE] = place;
        part[shown::KIND] = record.kind as u8;
        put_label(&mut part[shown::LABEL..], TableOf::RecordLabel, record.label, rules);
        put_content(&mut part[shown::VALUE..], record.content, rules);
    }
}

/// The parts that tell of the run as a whole: 0 unless its final label flows to
/// the reader.
fn write_run<R: Rules>(finished: &Finished, reader: Label, head: &mut [u8], rules: &R) {
    let (ending, result) = match finished.ending {
        Ending::Result(value) => (1, Some(Content::Value(value))),
        Ending::Fault(fault) => (2, Some(Content::Fault(fault))),
        Ending::Spent => (3, None),
    };
    match result {
        Some(content) => put_content(&mut head[view::RESULT..], content, rules),
        None => head[view::RESULT..view::LABEL].fill(0),
    }
    put(head, view::ENDING, &rules.short_bytes(ending));
    put(head, view::STEPS, &rules.short_bytes(finished.steps_used));
    put(head, view::NEXT_PLACE, &rules.short_bytes(finished.next_place));
    put_label(&mut head[view::LABEL..], TableOf::RunLabel, finished.label, rules);
    put_label(&mut head[view::CLEARANCE..], TableOf::Clearance, finished.clearance, rules);
    if !rules.flows(finished.label, reader) {
        for (field, at, length) in RUN {
            rules.blank(field, &mut head[at..at + length]);
        }
    }
}

/// What tells of the run as a whole: where in the view it is, and its length.
const RUN: [(Field, usize, usize); 6] = [
    (Field::Ending, view::ENDING, 2),
    (Field::Steps, view::STEPS, 2),
    (Field::NextPlace, view::NEXT_PLACE, 2),
    (Field::Result, view::RESULT, value::LENGTH),
    (Field::Label, view::LABEL, LABEL),
    (Field::Clearance, view::CLEARANCE, LABEL),
];

/// Writes a value or a fault into the front of `part`.
fn put_content<R: Rules>(part: &mut [u8], content: Content, rules: &R) {
    let number = |number| rules.number_words(number);
    let table = |table| rules.table_words(TableOf::Value, table);
    let (kind, first, second) = match content {
        Content::Value(Value::Number(value)) => (1, number(value), [0; WORDS]),
        Content::Value(Value::Label(label)) => (2, table(label.secrecy), table(label.integrity)),
        Content::Value(Value::Sealed(place)) => (3, number(place.into()), [0; WORDS]),
        Content::Value(Value::Reference(place)) => (4, number(place.into()), [0; WORDS]),
        Content::Fault(fault) => (5, number(fault.code.into()), number(fault.number)),
    };
    part[value::KIND] = kind;
    part[value::KIND + 1] = 0;
    put_words(&mut part[value::FIRST..], first, rules);
    put_words(&mut part[value::SECOND..], second, rules);
}

/// Writes a label into the front of `part`, its secrecy first.
fn put_label<R: Rules>(part: &mut [u8], of: TableOf, label: Label, rules: &R) {
    put_words(part, rules.table_words(of, label.secrecy), rules);
    put_words(&mut part[TABLE..], rules.table_words(of, label.integrity), rules);
}

fn put_words<R: Rules>(part: &mut [u8], words: [u64; WORDS], rules: &R) {
    for (part, word) in part.chunks_exact_mut(8).zip(words) {
        part.copy_from_slice(&rules.word_bytes(word));
    }
}

#[inline]
fn put(part: &mut [u8], at: usize, bytes: &[u8]) {
    part[at..at + bytes.len()].copy_from_slice(bytes);
}
