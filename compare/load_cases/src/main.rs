//! Writes the cases into a folder: `stdin`, which the program in the gate reads,
//! and `stdout`, which it has to print.

use load_cases::Case;
use std::path::Path;
use std::process::ExitCode;
use std::{env, fs, io};

fn main() -> ExitCode {
    let arguments: Vec<String> = env::args().skip(1).collect();
    let [folder] = &arguments[..] else {
        eprintln!("usage: load_cases OUTDIR");
        return ExitCode::FAILURE;
    };
    let cases = load_cases::cases();
    match write(Path::new(folder), &cases) {
        Ok(()) => ExitCode::SUCCESS,
        Err(error) => {
            eprintln!("load_cases: cannot write to {folder}: {error}");
            ExitCode::FAILURE
        }
    }
}

fn write(folder: &Path, cases: &[Case]) -> io::Result<()> {
    fs::create_dir_all(folder)?;
    fs::write(folder.join("stdin"), load_cases::input(cases))?;
    fs::write(folder.join("stdout"), load_cases::output(cases))?;
    println!("{} files: {}", cases.len(), counts(cases));
    Ok(())
}

/// How many cases get each answer.
fn counts(cases: &[Case]) -> String {
    let mut answers: Vec<_> = cases.iter().map(|case| load_cases::answer(&case.file)).collect();
    answers.sort();
    let counts =
        answers.chunk_by(|one, other| one == other).map(|same| format!("{} {}", same.len(), same[0]));
    counts.collect::<Vec<_>>().join(", ")
}
