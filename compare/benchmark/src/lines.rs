//! Files read and their views printed, in the form of a read, so that both are timed as
//! one.

#[cfg(feature = "proved")]
use crate::line_call;
use reference::print::{self, MAX_LINE};

/// Reads into the back of `buffer`, behind room for every line, and writes the view's
/// line into its front. Gives the line's length.
fn read_and_print(
    read: impl Fn(&[u8], usize, &mut [u8]) -> Result<usize, u8>,
    line: impl Fn(&[u8], &mut [u8]) -> Option<usize>,
    file: &[u8],
    reader: usize,
    buffer: &mut [u8],
) -> Result<usize, u8> {
    let (front, back) = buffer.split_at_mut(MAX_LINE);
    let length = read(file, reader, back)?;
    Ok(line(&back[..length], front).expect("room for every line"))
}

pub fn of_reference(file: &[u8], reader: usize, buffer: &mut [u8]) -> Result<usize, u8> {
    read_and_print(reference::read, print::line, file, reader, buffer)
}

#[cfg(feature = "proved")]
pub fn of_proved(file: &[u8], reader: usize, buffer: &mut [u8]) -> Result<usize, u8> {
    read_and_print(nechwalu::read, line_call::line, file, reader, buffer)
}
