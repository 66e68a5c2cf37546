//! The call as a whole: refusals 8 and 9, and what it leaves of the buffer; and what the
//! line of a view leaves of one.

use reference::limits::MAX_VIEW;
use reference::opcode::{NEW, OPEN, POP};
use reference::script::{Clauses, Code, Input, Script};
use reference::{batch, print, read};

fn two_records() -> Vec<u8> {
    let mut code = Code::new();
    code.push(5).lab(1).op(NEW).end();
    Script {
        labels: vec![Clauses::new(&[], &[]), Clauses::new(&[1], &[])],
        records: vec![Input::sealed(0, 7)],
        code: code.bytes(),
        steps: 10,
        places: 3,
    }
    .bytes()
}

#[test]
fn the_view_fits_a_buffer_of_its_length_and_no_shorter_one() {
    let file = two_records();
    for (reader, length) in [(0, 206 + 132), (1, 206 + 264)] {
        for size in (0..1_000).chain([MAX_VIEW]) {
            let mut buffer = vec![0xEE; size];
            let answer = read(&file, reader, &mut buffer);
            if size < length {
                assert_eq!(answer, Err(9));
                assert!(buffer.iter().all(|&byte| byte == 0xEE));
            } else {
                assert_eq!(answer, Ok(length));
                assert!(buffer[length..].iter().all(|&byte| byte == 0xEE));
                assert_eq!(buffer[10..12], (length as u16).to_le_bytes());
            }
        }
    }
}

#[test]
fn the_line_fits_a_buffer_of_its_length_and_no_shorter_one() {
    let file = two_records();
    let lines = print::lines(&file);
    for (reader, line) in lines.split_inclusive('\n').enumerate() {
        let mut view = vec![0; MAX_VIEW];
        let length = read(&file, reader, &mut view).expect("a valid file");
        for size in 0..line.len() + 80 {
            let mut buffer = vec![0xEE; size];
            let answer = print::line(&view[..length], &mut buffer);
            if size < line.len() {
                assert_eq!(answer, None);
                assert!(buffer.iter().all(|&byte| byte == 0xEE));
            } else {
                assert_eq!(answer, Some(line.len()));
                assert_eq!(&buffer[..line.len()], line.as_bytes());
                assert!(buffer[line.len()..].iter().all(|&byte| byte == 0xEE));
            }
        }
    }
}

#[test]
fn the_longest_line_is_that_of_the_longest_view() {
    let mut text = String::new();
    print::push_view(&mut text, &[0; MAX_VIEW]);
    assert_eq!(text.len(), print::MAX_LINE);
}

#[test]
fn a_reader_that_is_no_label_is_refused_before_a_short_buffer() {
    for reader in [2, 3, 255, 256, usize::MAX] {
        assert_eq!(read(&two_records(), reader, &mut []), Err(8));
    }
}

#[test]
fn a_bad_file_is_refused_before_a_bad_reader() {
    let mut file = two_records();
    *file.last_mut().unwrap() = POP;
    assert_eq!(read(&file, usize::MAX, &mut []), Err(7));
}

/// A run whose final label is hidden shows nothing of itself, but its records,
/// their count and the two lengths stand.
#[test]
fn a_hidden_final_label() {
    let mut code = Code::new();
    code.input(0).op(OPEN).end();
    let file = Script {
        labels: vec![Clauses::new(&[], &[]), Clauses::new(&[1], &[])],
        records: vec![Input::sealed(1, 7), Input::reference(0, 8)],
        code: code.bytes(),
        steps: 10,
        places: 3,
    }
    .bytes();
    let mut buffer = [0xEE; MAX_VIEW];
    assert_eq!(read(&file, 0, &mut buffer), Ok(338));
    let mut expected = [0; 338];
    expected[6] = 1;
    expected[8] = 206;
    expected[10..12].copy_from_slice(&338u16.to_le_bytes());
    expected[206..208].copy_from_slice(&[1, 1]);
    expected[208..272].fill(0xFF);
    expected[272] = 1;
    expected[274] = 8;
    assert_eq!(buffer[..338], expected);
}

#[test]
fn a_batch_is_split_into_its_files() {
    let file = two_records();
    let mut bytes = Vec::new();
    batch::push(&mut bytes, &file);
    batch::push(&mut bytes, b"");
    assert_eq!(batch::split(&bytes), Some(vec![&file[..], b""]));
    assert_eq!(batch::lines(&file), print::lines(&file) + ".\n");
    assert_eq!(batch::lines(b""), "refused 1\n.\n");
    bytes.pop();
    assert_eq!(batch::split(&bytes), None);
}
