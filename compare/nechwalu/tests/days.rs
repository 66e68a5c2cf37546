//! The repository's example of a day through the safe call: every view against the
//! stored lines, and every byte that has to stay as it was.

#![cfg(feature = "proved")]

use nechwalu::{read_day, LONGEST_DAY};
use reference::print::push_view;

/// What a buffer holds before a read.
const FILL: u8 = 0xa5;

const DAY: &[u8] = include_bytes!("../../../examples/counter_day.day");
const LINES: &str = include_str!("../../../examples/counter_day.expected");
const JOBS: usize = 3;

fn readers() -> usize {
    LINES.lines().count() / JOBS
}

/// The answer of a read into a buffer of `room` bytes within a longer one, and the
/// views. Nothing else may be written.
fn read_with(file: &[u8], reader: usize, room: usize) -> Result<Vec<u8>, u8> {
    const GUARD: usize = 64;
    let mut memory = vec![FILL; GUARD + room + GUARD];
    let answer = read_day(file, reader, &mut memory[GUARD..GUARD + room]);
    let mut rest = memory;
    let views: Vec<u8> = rest.drain(GUARD..GUARD + answer.unwrap_or(0)).collect();
    assert!(rest.iter().all(|&byte| byte == FILL), "a byte outside the views is written");
    answer.map(|_| views)
}

#[test]
fn the_views_are_the_stored_lines() {
    let mut text = String::new();
    for reader in 0..readers() {
        let views = read_with(DAY, reader, LONGEST_DAY).expect("a valid day");
        let mut rest = &views[..];
        while !rest.is_empty() {
            let (view, next) = rest.split_at(u16::from_le_bytes([rest[10], rest[11]]).into());
            push_view(&mut text, view);
            rest = next;
        }
    }
    assert_eq!(text, LINES);
}

#[test]
fn a_buffer_has_to_be_as_long_as_all_views() {
    for reader in 0..readers() {
        let views = read_with(DAY, reader, LONGEST_DAY).expect("a valid day");
        assert_eq!(read_with(DAY, reader, views.len()), Ok(views.clone()));
        for room in [0, 1, 205, 206, views.len() - 206, views.len() - 1] {
            assert_eq!(read_with(DAY, reader, room), Err(9));
        }
    }
}

#[test]
fn a_reader_has_to_be_a_label() {
    for reader in [readers(), 32, 255, 256, usize::MAX] {
        assert_eq!(read_with(DAY, reader, LONGEST_DAY), Err(8));
        assert_eq!(read_day(DAY, reader, &mut []), Err(8));
    }
}

#[test]
fn other_refusals() {
    assert_eq!(read_day(&[], 0, &mut []), Err(1));
    assert_eq!(read_with(&DAY[..19], 0, LONGEST_DAY), Err(1));
    assert_eq!(read_with(&DAY[..20], 0, LONGEST_DAY), Err(3));
    let with = |at: usize, byte: u8| {
        let mut file = DAY.to_vec();
        file[at] = byte;
        read_with(&file, 0, LONGEST_DAY).expect_err("a day that is not in order")
    };
    assert_eq!(with(0, 1), 2);
    assert_eq!(with(2, 16), 3);
    assert_eq!(with(22, 2), 4);
    assert_eq!(with(49, 16), 10);
    assert_eq!(with(31, 2), 6);
    assert_eq!(with(85, 0xff), 7);
}
