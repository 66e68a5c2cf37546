//! What is printed for the files and the day of `cases::writing`, worked out by hand.

use cases::writing;
use reference::print;

const ZERO: &str = "0000000000000000000000000000000000000000000000000000000000000000";
/// The bytes of a field above a number of one byte.
const UPPER: &str = "00000000000000000000000000000000000000000000000000000000000000";
/// The same of a number of four bytes.
const UPPER_OF_FOUR: &str = "00000000000000000000000000000000000000000000000000000000";
/// The label's two tables, each with its lowest word and byte first.
const LABEL: &str = "8088a0a8c0c8e0e88088a0a8c0c8f0f88088a0a8c0cce0ec8088a0a8c0ccf0fc \
                     80a0c0e088a8c8e880a0c0e088aac8ea80a0c0f088a8c8f880a0c0f088aac8fa";

/// The input record in `place`.
fn record(place: &str) -> String {
    format!("{place} 00 {LABEL} 0100 9da6c5f3{UPPER_OF_FOUR} {ZERO}")
}

/// A view with one record. Label and clearance are the same.
fn line(front: &str, value: &str) -> String {
    format!("{front} 0100 0100 ce00 5201 {value} {LABEL} {LABEL} {}\n", record("00"))
}

/// All 50,598 steps are used.
fn spent() -> String {
    line("0300 a6c5", &format!("0000 {ZERO} {ZERO}"))
}

/// LAB, LAB, SEAL and END; 206 + 2 * 132 is 470.
fn sealed() -> String {
    let value = format!("0300 01{UPPER} {ZERO}");
    let made = format!("01 00 {LABEL} 0200 {LABEL}");
    format!("0100 0400 0200 0200 ce00 d601 {value} {LABEL} {LABEL} {} {made}\n", record("00"))
}

/// 206 + 6 * 132 is 998.
fn six_records() -> String {
    let value = format!("0500 14{UPPER} {ZERO}");
    let records = ["00", "01", "02", "03", "04", "05"].map(record).join(" ");
    format!("0200 0100 0600 0600 ce00 e603 {value} {LABEL} {LABEL} {records}\n")
}

#[test]
fn lines() {
    let expected = [
        spent(),
        line("0100 0200", &format!("0200 {LABEL}")),
        sealed(),
        line("0200 0200", &format!("0500 1e{UPPER} 8cb3d7e9{UPPER_OF_FOUR}")),
        six_records(),
    ];
    let cases = writing::cases();
    assert_eq!(cases.len(), expected.len());
    for (case, line) in cases.iter().zip(expected) {
        // The two labels are the same.
        assert_eq!(print::lines(&case.file), line.repeat(2), "{}", case.name);
    }
}

#[test]
fn lines_of_the_day() {
    let skipped = format!("0400 0000 0000 0000 ce00 ce00 0000{}\n", format!(" {ZERO}").repeat(6));
    assert_eq!(print::day_lines(&writing::day().file), (spent() + &skipped).repeat(2));
}
