//! Reading the result of an untrusted script without seeing more than one may.
//!
//! A *file* holds a script, some input records, and labels that say who may know
//! and who vouches for what. [`read`] runs the script under information-flow
//! control and writes a *view*: the result and the records, as far as the label
//! that you read with allows, in a fixed binary layout of 206 bytes and 132 for
//! each record shown. Whatever the script does, a view does not depend on
//! numbers of input records that its label may not see. That is proved of the
//! library behind this crate, not only tested.
//!
//! A *day* is a file of up to 16 scripts, its jobs, that work on one set of records
//! in turn. [`read_day`] runs them and writes a view for each.
//!
//! [`quote`] says before any run what a file's script can cost at most.
//!
//! The library is a static one, `libmonitor.a`. Build with the feature `proved`
//! and with `NECHWALU_LIB` set to the absolute path of its directory.

#![cfg(feature = "proved")]

/// The length of a view without records; any answer below it is a refusal.
const SHORTEST_VIEW: usize = 206;

/// A buffer of this length is long enough for every view.
pub const LONGEST_VIEW: usize = SHORTEST_VIEW + 132 * 256;

/// A buffer of this length is long enough for the views of every day.
pub const LONGEST_DAY: usize = 16 * LONGEST_VIEW;

extern "C" {
    fn nechwalu_read(
        file: *const u8,
        file_len: usize,
        reader: usize,
        buffer: *mut u8,
        buffer_len: usize,
    ) -> usize;

    fn nechwalu_read_day(
        file: *const u8,
        file_len: usize,
        reader: usize,
        buffer: *mut u8,
        buffer_len: usize,
    ) -> usize;

    fn nechwalu_quote(file: *const u8, file_len: usize) -> u64;
}

/// Runs the script in `file` and writes what the label with index `reader`
/// (counted from 0 in the file's list of labels) may see into `buffer`.
///
/// Gives the view's length; the view is `buffer[..length]` and the rest of the
/// buffer is as before. [`LONGEST_VIEW`] bytes are always enough.
///
/// # Errors
///
/// The number of the first reason to refuse, and then the buffer is as before:
///
/// 1. the file is shorter than 16 bytes or longer than 65,535,
/// 2. a count in its header is outside its limits,
/// 3. the offsets in its header do not fit together, or not its length,
/// 4. a label is malformed,
/// 5. the starting label does not flow to the starting clearance,
/// 6. an input record is malformed,
/// 7. the code is malformed,
/// 8. `reader` is not the index of a label,
/// 9. the buffer is shorter than the view.
///
/// A script that faults or runs out of steps is no error: its view says so.
///
/// # Example
///
/// ```
/// // Two labels, no records, 6 bytes of code: PUSH 5, END; at most 10 steps.
/// let mut file = Vec::new();
/// for number in [2u16, 16, 0, 21, 6, 21, 10, 0] {
///     file.extend(number.to_le_bytes());
/// }
/// file.extend([0, 0]); // the starting label: public
/// file.extend([1, 0, 0]); // the clearance: everything secret
/// file.extend([0x01, 5, 0, 0, 0, 0x00]);
///
/// let mut buffer = [0; nechwalu::LONGEST_VIEW];
/// let length = nechwalu::read(&file, 0, &mut buffer).expect("a valid file");
/// let view = &buffer[..length];
/// assert_eq!(view[0], 1); // it ended with a result,
/// assert_eq!(view[12], 1); // which is a number,
/// assert_eq!(view[14], 5); // namely 5
/// ```
pub fn read(file: &[u8], reader: usize, buffer: &mut [u8]) -> Result<usize, u8> {
    // SAFETY: both pointers come from slices and go with those slices' lengths;
    // the library reads the one and writes the other, within these lengths, and
    // keeps neither.
    let answer =
        unsafe { nechwalu_read(file.as_ptr(), file.len(), reader, buffer.as_mut_ptr(), buffer.len()) };
    length_or_refusal(answer)
}

/// Runs the jobs of the day in `file`, one behind the other, and writes what the
/// label with index `reader` (counted from 0 in the file's list of labels) may see
/// into `buffer`: a view for each job, end to end.
///
/// Gives the length of all views together; they are `buffer[..length]` and the rest
/// of the buffer is as before. Each view holds its own length in its bytes 10 and
/// 11, so that the next one can be found. [`LONGEST_DAY`] bytes are always enough.
///
/// Each caller's jobs that run may declare as many steps together as the header says,
/// whatever other callers' jobs do. A job that declares more than its caller has left is
/// skipped: its view is 206 bytes, with ending 4 and the two length fields, and the rest
/// is 0.
///
/// # Errors
///
/// The number of the first reason to refuse, in this order, and then the buffer is
/// as before:
///
/// - 1: the file is shorter than 20 bytes or longer than 65,535,
/// - 2: a count of labels, records or code bytes is outside its limits,
/// - 3: the offsets in its header do not fit together, or not its length,
/// - 4: a label is malformed,
/// - 10: there are no jobs or more than 16, or a job is malformed, or its starting
///   label does not flow to its clearance,
/// - 6: an input record is malformed,
/// - 7: the code of a job is malformed,
/// - 8: `reader` is not the index of a label,
/// - 9: the buffer is shorter than all views together.
///
/// # Example
///
/// ```
/// // Two labels, no records, three jobs, 6 bytes of code; 10 steps for each caller.
/// let mut file = Vec::new();
/// for number in [2u16, 20, 0, 25, 3, 25, 6, 61, 10, 0] {
///     file.extend(number.to_le_bytes());
/// }
/// file.extend([0, 0]); // label 0: public
/// file.extend([1, 0, 0]); // label 1: everything secret
/// for caller in [4, 4, 1] {
///     file.extend([caller, 0, 1, 0]); // starts public, with label 1 as clearance
///     for number in [6u16, 0, 0, 6] {
///         file.extend(number.to_le_bytes()); // 6 steps, no places, all of the code
///     }
/// }
/// file.extend([0x01, 5, 0, 0, 0, 0x00]); // PUSH 5, END
///
/// let mut buffer = vec![0; nechwalu::LONGEST_DAY];
/// let length = nechwalu::read_day(&file, 0, &mut buffer).expect("a valid day");
/// assert_eq!(length, 206 + 206 + 206);
/// let views: Vec<&[u8]> = buffer[..length].chunks(206).collect();
/// assert_eq!((views[0][0], views[0][14]), (1, 5)); // ended with a result, 5
/// assert_eq!(views[1][0], 4); // skipped: caller 4 had 4 steps left
/// assert_eq!((views[2][0], views[2][14]), (1, 5)); // caller 1 had all of its own
/// ```
pub fn read_day(file: &[u8], reader: usize, buffer: &mut [u8]) -> Result<usize, u8> {
    // SAFETY: as for `read`, of which this call has the form.
    let answer =
        unsafe { nechwalu_read_day(file.as_ptr(), file.len(), reader, buffer.as_mut_ptr(), buffer.len()) };
    length_or_refusal(answer)
}

/// What a script costs at most: see [`quote`].
#[derive(Debug, Clone, Copy, PartialEq, Eq)]
pub struct Quote {
    /// The most steps along any path through the code, blocks paid in full.
    pub steps: u32,
    /// The most places along any path; those of the input records are not among them.
    pub places: u32,
}

/// Works out what the script in `file`, a plain file, costs at most, without running it.
///
/// A path starts with the first instruction, goes both ways at IFZ, and stops at END or
/// THROW. The quote has the largest steps and the largest places along any path, each by
/// itself, so that the two may be of different paths. No run uses more, whatever the
/// numbers in the input records are. The steps and places that the file allots do not
/// matter.
///
/// # Errors
///
/// The number of the first reason to refuse, in this order:
///
/// - 1: the file is shorter than 16 bytes or longer than 65,535,
/// - 2: a count in its header is outside its limits,
/// - 3: the offsets in its header do not fit together, or not its length,
/// - 4: a label is malformed,
/// - 5: the starting label does not flow to the starting clearance,
/// - 6: an input record is malformed,
/// - 7: the code is malformed,
/// - 11: somewhere in the code, be it where no path comes, there is a TRY, or a target
///   that is not ahead of its instruction's own start.
///
/// # Example
///
/// ```
/// // Two labels, no records, 14 bytes of code; at most 10 steps and 4 places.
/// let mut file = Vec::new();
/// for number in [2u16, 16, 0, 21, 14, 21, 10, 4] {
///     file.extend(number.to_le_bytes());
/// }
/// file.extend([0, 0]); // the starting label: public
/// file.extend([1, 0, 0]); // the clearance: everything secret
/// file.extend([0x03, 0, 0x0b, 9, 0]); // GET 0, IFZ to the byte 9,
/// file.extend([0x0c, 0x0c, 0x13, 0x00]); // CUR, CUR, SEAL, END,
/// file.extend([0x0c, 0x0c, 0x0c, 0x0c, 0x00]); // and at 9: four times CUR, END
///
/// let quote = nechwalu::quote(&file).expect("every target is ahead, and there is no TRY");
/// // The most steps if the IFZ jumps, and the most places if it does not.
/// assert_eq!(quote, nechwalu::Quote { steps: 7, places: 1 });
///
/// file[24] = 0; // IFZ back to the start
/// assert_eq!(nechwalu::quote(&file), Err(11));
/// ```
pub fn quote(file: &[u8]) -> Result<Quote, u8> {
    // SAFETY: the pointer comes from a slice and goes with its length; the library reads
    // within it and keeps nothing.
    let answer = unsafe { nechwalu_quote(file.as_ptr(), file.len()) };
    // A path has an instruction at least, so that no quote has 0 steps.
    match (answer >> 32) as u32 {
        0 => Err(answer as u8),
        steps => Ok(Quote { steps, places: answer as u32 }),
    }
}

fn length_or_refusal(answer: usize) -> Result<usize, u8> {
    if answer < SHORTEST_VIEW {
        Err(answer as u8)
    } else {
        Ok(answer)
    }
}
