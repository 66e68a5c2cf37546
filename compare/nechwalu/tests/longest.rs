//! The longest views, and buffers that held any view with six principals: such a buffer is
//! refused, and no byte of it is written.

#![cfg(feature = "proved")]

use nechwalu::{read, read_day, LONGEST_DAY, LONGEST_VIEW};

/// What a buffer holds before a read.
const FILL: u8 = 0xa5;

/// The shortest and the longest view, and the longest day, with six principals.
const OLD_SHORTEST_VIEW: usize = 62;
const OLD_LONGEST_VIEW: usize = 9278;
const OLD_LONGEST_DAY: usize = 148_448;

const STEPS: u16 = 2000;
const PLACES: u16 = 256;

/// Label 0 is public, label 1 everything secret.
const LABELS: [u8; 5] = [0, 0, 1, 0, 0];

/// PUSH 5, LAB 0, SEAL, POP, and again, until there is no place left.
const CODE: [u8; 12] = [0x01, 5, 0, 0, 0, 0x02, 0, 0x13, 0x05, 0x0A, 0, 0];

fn numbers(file: &mut Vec<u8>, numbers: &[u16]) {
    file.extend(numbers.iter().flat_map(|number| number.to_le_bytes()));
}

/// A file that shows every reader 256 records.
fn longest_file() -> Vec<u8> {
    let mut file = Vec::new();
    numbers(&mut file, &[2, 16, 0, 21, 12, 21, STEPS, PLACES]);
    file.extend(LABELS);
    file.extend(CODE);
    file
}

/// A day of 16 such jobs, each of another caller.
fn longest_day() -> Vec<u8> {
    let mut file = Vec::new();
    numbers(&mut file, &[2, 20, 0, 25, 16, 25, 12, 25 + 16 * 12, STEPS, 0]);
    file.extend(LABELS);
    for caller in 0..16 {
        file.extend([caller, 0, 1, 0]);
        numbers(&mut file, &[STEPS, PLACES, 0, 12]);
    }
    file.extend(CODE);
    file
}

type Read = fn(&[u8], usize, &mut [u8]) -> Result<usize, u8>;

/// A buffer of `longest` bytes holds the views; shorter ones are refused and stay as they were.
fn held_by(read: Read, file: &[u8], longest: usize, shorter: &[usize]) {
    for reader in 0..2 {
        let mut buffer = vec![FILL; longest];
        assert_eq!(read(file, reader, &mut buffer), Ok(longest));
        assert!(buffer.chunks(LONGEST_VIEW).all(|view| view[6..8] == PLACES.to_le_bytes()));
        for &room in shorter {
            let mut buffer = vec![FILL; room];
            assert_eq!(read(file, reader, &mut buffer), Err(9));
            assert!(buffer.iter().all(|&byte| byte == FILL), "a buffer of {room} bytes is written");
        }
    }
}

#[test]
fn an_old_buffer_for_a_view() {
    let shorter = [OLD_SHORTEST_VIEW, OLD_LONGEST_VIEW, LONGEST_VIEW - 1];
    held_by(read, &longest_file(), LONGEST_VIEW, &shorter);
}

#[test]
fn an_old_buffer_for_a_day() {
    let shorter = [OLD_SHORTEST_VIEW, OLD_LONGEST_VIEW, OLD_LONGEST_DAY, LONGEST_DAY - 1];
    held_by(read_day, &longest_day(), LONGEST_DAY, &shorter);
}
