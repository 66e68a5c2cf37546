//! The repository's examples through the safe call: every view against the
//! stored line, and every byte that has to stay as it was.

#![cfg(feature = "proved")]

use nechwalu::{read, LONGEST_VIEW};
use reference::print::push_view;

/// What a buffer holds before a read.
const FILL: u8 = 0xa5;

/// The script files of the examples, each with its lines.
const EXAMPLES: [(&[u8], &str); 3] = [
    (
        include_bytes!("../../../examples/compare_presets.script"),
        include_str!("../../../examples/compare_presets.expected"),
    ),
    (
        include_bytes!("../../../examples/crash_count.script"),
        include_str!("../../../examples/crash_count.expected"),
    ),
    (
        include_bytes!("../../../examples/demo_set.script"),
        include_str!("../../../examples/demo_set.expected"),
    ),
];

/// The answer of a read into a buffer of `room` bytes within a longer one, and
/// the view. Nothing else may be written.
fn read_with(file: &[u8], reader: usize, room: usize) -> Result<Vec<u8>, u8> {
    const GUARD: usize = 64;
    let mut memory = vec![FILL; GUARD + room + GUARD];
    let answer = read(file, reader, &mut memory[GUARD..GUARD + room]);
    let mut rest = memory;
    let view: Vec<u8> = rest.drain(GUARD..GUARD + answer.unwrap_or(0)).collect();
    assert!(rest.iter().all(|&byte| byte == FILL), "a byte outside the view is written");
    answer.map(|_| view)
}

#[test]
fn the_views_are_the_stored_lines() {
    for (file, lines) in EXAMPLES {
        let mut text = String::new();
        for reader in 0..lines.lines().count() {
            push_view(&mut text, &read_with(file, reader, LONGEST_VIEW).expect("a valid file"));
        }
        assert_eq!(text, lines);
    }
}

#[test]
fn a_buffer_has_to_be_as_long_as_the_view() {
    for (file, lines) in EXAMPLES {
        for reader in 0..lines.lines().count() {
            let view = read_with(file, reader, LONGEST_VIEW).expect("a valid file");
            assert_eq!(read_with(file, reader, view.len()), Ok(view.clone()));
            assert_eq!(read_with(file, reader, view.len() - 1), Err(9));
            assert_eq!(read_with(file, reader, 0), Err(9));
            assert_eq!(read(file, reader, &mut []), Err(9));
        }
    }
}

#[test]
fn a_reader_has_to_be_a_label() {
    for (file, lines) in EXAMPLES {
        let too_high = (5..usize::BITS).map(|bit| 1 << bit);
        for reader in too_high.chain([lines.lines().count(), 99, usize::MAX]) {
            assert_eq!(read_with(file, reader, LONGEST_VIEW), Err(8));
            assert_eq!(read(file, reader, &mut []), Err(8));
        }
    }
}

#[test]
fn a_file_has_to_have_its_length() {
    assert_eq!(read(&[], 0, &mut []), Err(1));
    for (file, _) in EXAMPLES {
        let longer = |length| {
            let mut longer = file.to_vec();
            longer.resize(length, 0);
            longer
        };
        let refused =
            |file: &[u8]| read_with(file, 0, LONGEST_VIEW).expect_err("another length than the header's");
        assert_eq!(refused(&file[..0]), 1);
        assert_eq!(refused(&file[..15]), 1);
        assert_eq!(refused(&file[..file.len() - 1]), 3);
        assert_eq!(refused(&longer(65_535)), 3);
        assert_eq!(refused(&longer(65_536)), 1);
    }
}
