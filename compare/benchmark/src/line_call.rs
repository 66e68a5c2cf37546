//! The proved library's line of a view. It is no call of the crate `nechwalu`, which
//! gives views and prints nothing: a library of its own, `libline_call.a`, has what the
//! proved programs print a view with, to be timed.

extern "C" {
    fn nechwalu_line(view: *const u8, view_len: usize, buffer: *mut u8, buffer_len: usize) -> usize;
}

/// Writes the line for `view`, one that a read gave, into the front of `buffer` and
/// gives its length. A buffer that is too short is left alone.
pub fn line(view: &[u8], buffer: &mut [u8]) -> Option<usize> {
    // SAFETY: both pointers come from slices and go with those slices' lengths; the
    // library reads the one and writes the other, within these lengths, and keeps
    // neither.
    let length = unsafe { nechwalu_line(view.as_ptr(), view.len(), buffer.as_mut_ptr(), buffer.len()) };
    // No line is empty: 0 stands for a buffer that is too short.
    (length > 0).then_some(length)
}

#[cfg(test)]
mod tests {
    use super::line;
    use crate::loads::records_alone;
    use cases::writing;
    use reference::file::File;
    use reference::limits::MAX_VIEW;
    use reference::print;

    /// The timed file and hand-worked ones.
    fn files() -> Vec<Vec<u8>> {
        let hand_worked = [cases::all(), writing::cases()].concat().into_iter().map(|case| case.file);
        hand_worked.chain([records_alone().bytes()]).filter(|file| File::parse(file).is_ok()).collect()
    }

    /// The view that the proved library gives each label of each file, and the line that
    /// the reference prints for it.
    fn views_and_lines() -> Vec<(Vec<u8>, String)> {
        let mut all = Vec::new();
        for file in files() {
            for (reader, line) in print::lines(&file).split_inclusive('\n').enumerate() {
                let mut view = vec![0; MAX_VIEW];
                let length = nechwalu::read(&file, reader, &mut view).expect("a valid file");
                view.truncate(length);
                all.push((view, line.to_string()));
            }
        }
        all
    }

    #[test]
    fn both_implementations_write_the_same_line() {
        for (view, expected) in views_and_lines() {
            // Just long enough, and with bytes behind the line, which stay.
            for behind in [0, 1, 100] {
                let mut buffer = vec![0xEE; expected.len() + behind];
                assert_eq!(line(&view, &mut buffer), Some(expected.len()));
                assert_eq!(&buffer[..expected.len()], expected.as_bytes());
                assert!(buffer[expected.len()..].iter().all(|&byte| byte == 0xEE));
                let mut of_reference = vec![0xEE; expected.len() + behind];
                assert_eq!(print::line(&view, &mut of_reference), Some(expected.len()));
                assert_eq!(buffer, of_reference);
            }
        }
    }

    #[test]
    fn a_buffer_that_is_too_short_is_left_alone() {
        for (view, expected) in views_and_lines() {
            for size in [expected.len() - 1, expected.len() / 2, 1, 0] {
                let mut buffer = vec![0xEE; size];
                assert_eq!(line(&view, &mut buffer), None, "{size} bytes");
                assert!(buffer.iter().all(|&byte| byte == 0xEE), "{size} bytes");
            }
        }
    }
}
