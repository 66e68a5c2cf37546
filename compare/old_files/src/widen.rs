//! Views of six principals as the views of eight that tell the same. It is written from the
//! papers' words, and has their numbers by itself.

/// The six numbers in front of every view.
const NUMBERS: usize = 12;
/// Bytes of a table, a label and a value in an old view.
const TABLE: usize = 8;
const LABEL: usize = 2 * TABLE;
const VALUE: usize = 2 + 2 * TABLE;
/// Where the records of an old view start, and what each takes.
const OLD_RECORDS: usize = 62;
const OLD_RECORD: usize = 36;
/// Where those of a view of eight principals do, and what each takes.
const RECORDS: usize = 206;
const RECORD: usize = 132;
/// The 64 sets of six principals are in each of so many words: without both of the last two
/// principals, with one or the other, and with both.
const WORDS: usize = 4;
/// The kind of a value that is a label.
const LABEL_KIND: u8 = 2;

/// Views laid end to end.
pub fn views(old: &[u8]) -> Vec<u8> {
    let mut rest = old;
    let mut new = Vec::new();
    while !rest.is_empty() {
        let (one, behind) = rest.split_at(number(rest, 10).into());
        new.extend(view(one));
        rest = behind;
    }
    new
}

/// One view.
pub fn view(old: &[u8]) -> Vec<u8> {
    let (front, records) = old.split_at(OLD_RECORDS);
    let (numbers, run) = front.split_at(NUMBERS);
    assert_eq!(usize::from(number(numbers, 8)), OLD_RECORDS);
    assert_eq!(usize::from(number(numbers, 10)), old.len());
    let length = RECORDS + RECORD * (records.len() / OLD_RECORD);
    let mut new = numbers[..8].to_vec();
    new.extend((RECORDS as u16).to_le_bytes());
    new.extend((length as u16).to_le_bytes());
    new.extend(value(&run[..VALUE]));
    new.extend(label(&run[VALUE..VALUE + LABEL]));
    new.extend(label(&run[VALUE + LABEL..]));
    for record in records.chunks_exact(OLD_RECORD) {
        new.extend(&record[..2]);
        new.extend(label(&record[2..2 + LABEL]));
        new.extend(value(&record[2 + LABEL..]));
    }
    assert_eq!(new.len(), length);
    new
}

/// The last two principals have no say in an old formula, so that every word is the old table.
fn label(old: &[u8]) -> Vec<u8> {
    old.chunks_exact(TABLE).flat_map(|table| table.repeat(WORDS)).collect()
}

/// A label as such; anything else with zeros above both words.
fn value(old: &[u8]) -> Vec<u8> {
    let (kind, words) = old.split_at(2);
    if kind[0] == LABEL_KIND {
        return [kind, &label(words)].concat();
    }
    let zeros = [0; (WORDS - 1) * TABLE];
    let (first, second) = words.split_at(TABLE);
    [kind, first, &zeros, second, &zeros].concat()
}

/// The 16-bit number at `at`.
fn number(view: &[u8], at: usize) -> u16 {
    u16::from_le_bytes([view[at], view[at + 1]])
}
