//! Batches: files one behind the other, each behind its length as a 32-bit
//! little-endian number.

use crate::print;

/// Puts `file` at the end of `batch`.
pub fn push(batch: &mut Vec<u8>, file: &[u8]) {
    let length = u32::try_from(file.len()).expect("a file in a batch is below 4 GiB");
    batch.extend(length.to_le_bytes());
    batch.extend(file);
}

/// The files of a batch, or `None` if the last one is cut.
pub fn split(mut batch: &[u8]) -> Option<Vec<&[u8]>> {
    let mut files = Vec::new();
    while !batch.is_empty() {
        let (length, rest) = batch.split_first_chunk()?;
        let (file, rest) = rest.split_at_checked(u32::from_le_bytes(*length) as usize)?;
        files.push(file);
        batch = rest;
    }
    Some(files)
}

/// What is printed for a file of a batch: its lines, then a line `.`.
pub fn lines(file: &[u8]) -> String {
    print::lines(file) + ".\n"
}

/// What is printed for a day of a batch of days.
pub fn day_lines(file: &[u8]) -> String {
    print::day_lines(file) + ".\n"
}
