//! The program: what it reads, prints and exits with.

use reference::batch;
use std::io::Write;
use std::process::{Command, Output, Stdio};

fn run(arguments: &[&str], input: &[u8]) -> Output {
    let mut child = Command::new(env!("CARGO_BIN_EXE_reference"))
        .args(arguments)
        .stdin(Stdio::piped())
        .stdout(Stdio::piped())
        .stderr(Stdio::piped())
        .spawn()
        .expect("the program starts");
    // It need not read all of its input, so that a failed write is no failure.
    _ = child.stdin.take().expect("a pipe").write_all(input);
    child.wait_with_output().expect("the program ends")
}

/// L 2, C 0, K 0, S 10, labels `0000 010000`, code `010500000000`.
const EXAMPLE: [u8; 27] = [
    2, 0, 16, 0, 0, 0, 21, 0, 6, 0, 21, 0, 10, 0, 0, 0, // header
    0, 0, 1, 0, 0, // labels
    1, 5, 0, 0, 0, 0, // code
];
const LINE: &str = "0100 0200 0000 0000 ce00 ce00 0100 \
                    0500000000000000000000000000000000000000000000000000000000000000 \
                    0000000000000000000000000000000000000000000000000000000000000000 \
                    ffffffffffffffffffffffffffffffffffffffffffffffffffffffffffffffff \
                    ffffffffffffffffffffffffffffffffffffffffffffffffffffffffffffffff \
                    0000000000000000000000000000000000000000000000000000000000000000 \
                    ffffffffffffffffffffffffffffffffffffffffffffffffffffffffffffffff\n";

#[test]
fn the_example_prints_its_line_twice() {
    let output = run(&[], &EXAMPLE);
    assert!(output.status.success());
    assert_eq!(String::from_utf8_lossy(&output.stdout), LINE.repeat(2));
    assert!(output.stderr.is_empty());
}

#[test]
fn a_file_that_is_too_long_is_refused() {
    for (length, line) in [(65_535, "refused 3\n"), (65_536, "refused 1\n"), (200_000, "refused 1\n")] {
        let mut file = EXAMPLE.to_vec();
        file.resize(length, 0);
        let output = run(&[], &file);
        assert!(output.status.success());
        assert_eq!(String::from_utf8_lossy(&output.stdout), line, "{length} bytes");
    }
}

#[test]
fn a_batch_prints_every_file_and_a_dot() {
    let mut input = Vec::new();
    batch::push(&mut input, &EXAMPLE);
    batch::push(&mut input, b"short");
    let output = run(&["--batch"], &input);
    assert!(output.status.success());
    assert_eq!(String::from_utf8_lossy(&output.stdout), LINE.repeat(2) + ".\nrefused 1\n.\n");
}

#[test]
fn what_it_cannot_do_is_an_error() {
    let cut_batch = run(&["--batch"], &[5, 0, 0, 0, 1]);
    let unknown_option = run(&["--views"], &[]);
    for output in [cut_batch, unknown_option] {
        assert!(!output.status.success());
        assert!(output.stdout.is_empty());
        assert!(String::from_utf8_lossy(&output.stderr).starts_with("reference: "));
    }
}

/// L 2, C 0, J 2, a limit of 10 steps; both jobs, of one caller, PUSH 5, END, with 10 steps each.
fn day() -> Vec<u8> {
    let job = [0, 0, 1, 0, 10, 0, 0, 0, 0, 0, 6, 0];
    let header = [2, 0, 20, 0, 0, 0, 25, 0, 2, 0, 25, 0, 6, 0, 49, 0, 10, 0, 0, 0];
    [&header[..], &EXAMPLE[16..21], &job, &job, &EXAMPLE[21..]].concat()
}

const SKIPPED: &str = "0400 0000 0000 0000 ce00 ce00 0000 \
                       0000000000000000000000000000000000000000000000000000000000000000 \
                       0000000000000000000000000000000000000000000000000000000000000000 \
                       0000000000000000000000000000000000000000000000000000000000000000 \
                       0000000000000000000000000000000000000000000000000000000000000000 \
                       0000000000000000000000000000000000000000000000000000000000000000 \
                       0000000000000000000000000000000000000000000000000000000000000000\n";

#[test]
fn a_day_prints_a_line_for_each_label_and_job() {
    let output = run(&["--day"], &day());
    assert!(output.status.success());
    assert_eq!(String::from_utf8_lossy(&output.stdout), [LINE, SKIPPED, LINE, SKIPPED].concat());
    assert!(output.stderr.is_empty());
}

#[test]
fn days_are_refused_and_told_from_plain_files_by_the_option() {
    let mut bad = day();
    bad[25] = 16;
    let cases: [(&[&str], &[u8], &str); 5] = [
        (&["--day"], &bad, "refused 10\n"),
        (&["--day"], &EXAMPLE, "refused 3\n"),
        (&[], &day(), "refused 3\n"),
        (&["--day"], &[0; 65_536], "refused 1\n"),
        (&["--day"], &[], "refused 1\n"),
    ];
    for (options, file, line) in cases {
        let output = run(options, file);
        assert!(output.status.success());
        assert_eq!(String::from_utf8_lossy(&output.stdout), line);
    }
}

#[test]
fn a_batch_of_days_prints_every_day_and_a_dot() {
    let mut input = Vec::new();
    batch::push(&mut input, b"short");
    batch::push(&mut input, &day());
    let output = run(&["--day", "--batch"], &input);
    assert!(output.status.success());
    let lines = ["refused 1\n.\n", LINE, SKIPPED, LINE, SKIPPED, ".\n"].concat();
    assert_eq!(String::from_utf8_lossy(&output.stdout), lines);
}

#[test]
fn a_quote_is_one_line() {
    let mut backwards = EXAMPLE;
    // JUMP 0, END, END, END in place of PUSH 5, END.
    backwards[21..].copy_from_slice(&[10, 0, 0, 0, 0, 0]);
    let cases: [(&[u8], &str); 5] = [
        (&EXAMPLE, "steps 2 places 0\n"),
        (&backwards, "refused 11\n"),
        (&day(), "refused 3\n"),
        (&[0; 65_536], "refused 1\n"),
        (&[], "refused 1\n"),
    ];
    let mut input = Vec::new();
    for (file, line) in cases {
        let output = run(&["--quote"], file);
        assert!(output.status.success());
        assert_eq!(String::from_utf8_lossy(&output.stdout), line);
        batch::push(&mut input, file);
    }
    let output = run(&["--quote", "--batch"], &input);
    assert!(output.status.success());
    assert_eq!(String::from_utf8_lossy(&output.stdout), cases.map(|(_, line)| line).concat());
}
