//! Reads a file from standard input and prints its view for each of its labels;
//! with `--day`, a day, and for each of its labels the views of its jobs. With
//! `--batch`, reads a batch of files, or days, and prints a line `.` behind each.
//! With `--quote`, prints the quote of a file, or of each file of a batch: one line.

use reference::limits::MAX_FILE;
use reference::{batch, print};
use std::io::{self, Read, Write};
use std::process::ExitCode;

fn main() -> ExitCode {
    let arguments: Vec<String> = std::env::args().skip(1).collect();
    let outcome = match arguments.iter().map(String::as_str).collect::<Vec<_>>()[..] {
        [] => print_file(print::lines),
        ["--batch"] => print_batch(batch::lines),
        ["--day"] => print_file(print::day_lines),
        ["--day", "--batch"] => print_batch(batch::day_lines),
        ["--quote"] => print_file(print::quote_line),
        ["--quote", "--batch"] => print_batch(print::quote_line),
        _ => Err(io::Error::other("usage: reference [--day | --quote] [--batch] < FILE")),
    };
    match outcome {
        Ok(()) => ExitCode::SUCCESS,
        Err(error) => {
            eprintln!("reference: {error}");
            ExitCode::FAILURE
        }
    }
}

fn print_file(lines: fn(&[u8]) -> String) -> io::Result<()> {
    let mut file = Vec::new();
    // One byte past the limit is enough to know that the file is too long.
    io::stdin().lock().take(MAX_FILE as u64 + 1).read_to_end(&mut file)?;
    io::stdout().lock().write_all(lines(&file).as_bytes())
}

fn print_batch(lines: fn(&[u8]) -> String) -> io::Result<()> {
    let mut bytes = Vec::new();
    io::stdin().lock().read_to_end(&mut bytes)?;
    let files = batch::split(&bytes).ok_or_else(|| io::Error::other("the batch's last file is cut"))?;
    let mut output = io::BufWriter::new(io::stdout().lock());
    for file in files {
        output.write_all(lines(file).as_bytes())?;
    }
    output.flush()
}
