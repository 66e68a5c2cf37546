//! Writes the corpus into a folder: `batch.bin` (the files), `expected.txt`
//! (what is to be printed for them) and `index.txt` (their names). With `--days`,
//! the corpus of days; with `--quotes`, that of files to be quoted.

use corpus::{days, quotes, Entry};
use std::path::Path;
use std::process::ExitCode;
use std::{env, fs, io};

fn main() -> ExitCode {
    let arguments: Vec<String> = env::args().skip(1).collect();
    let (folder, outcome) = match arguments.iter().map(String::as_str).collect::<Vec<_>>()[..] {
        ["--days", folder] => (folder, write(Path::new(folder), "days", days::entries(), days::expected)),
        ["--quotes", folder] => {
            (folder, write(Path::new(folder), "files to be quoted", quotes::entries(), quotes::expected))
        }
        [folder] if !folder.starts_with("--") => {
            (folder, write(Path::new(folder), "files", corpus::entries(), corpus::expected))
        }
        _ => {
            eprintln!("usage: corpus [--days | --quotes] OUTDIR");
            return ExitCode::FAILURE;
        }
    };
    match outcome {
        Ok(()) => ExitCode::SUCCESS,
        Err(error) => {
            eprintln!("corpus: cannot write to {folder}: {error}");
            ExitCode::FAILURE
        }
    }
}

fn write(folder: &Path, kind: &str, entries: Vec<Entry>, lines: fn(&[Entry]) -> String) -> io::Result<()> {
    let (batch, expected) = (corpus::batch(&entries), lines(&entries));
    fs::create_dir_all(folder)?;
    fs::write(folder.join("batch.bin"), &batch)?;
    fs::write(folder.join("expected.txt"), &expected)?;
    fs::write(folder.join("index.txt"), corpus::index(&entries))?;
    println!(
        "{} {kind}, {} bytes of batch, {} lines in {} bytes expected",
        entries.len(),
        batch.len(),
        expected.lines().count(),
        expected.len()
    );
    Ok(())
}
