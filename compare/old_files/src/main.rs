//! Reads old files and days with six principals and with eight, for all of their labels, and
//! says how often the views do not tell the same. Fails if they ever do not.

use generator::old;
use old_files::{is_old, Comparison, Kind};
use std::process::ExitCode;

const USAGE: &str = "usage: old_files [--files N] [--days N] [--seed N]";

struct Bounds {
    files: u64,
    days: u64,
    seed: u64,
}

fn main() -> ExitCode {
    let Some(bounds) = bounds(std::env::args().skip(1)) else {
        eprintln!("{USAGE}");
        return ExitCode::FAILURE;
    };
    let (mut files, mut days) = (Comparison::default(), Comparison::default());
    let hand_worked = cases::all().into_iter().map(|case| case.file);
    hand_worked.filter(|file| is_old(Kind::Plain, file)).for_each(|file| files.add(Kind::Plain, &file));
    (bounds.seed..bounds.seed + bounds.files).for_each(|seed| files.add(Kind::Plain, &old::file(seed)));
    let hand_worked = cases::days::all().into_iter().map(|case| case.file);
    hand_worked.filter(|file| is_old(Kind::Day, file)).for_each(|file| days.add(Kind::Day, &file));
    (bounds.seed..bounds.seed + bounds.days).for_each(|seed| days.add(Kind::Day, &old::day(seed)));
    for (kind, comparison) in [("files", files), ("days", days)] {
        let Comparison { files, refused, reads, differences } = comparison;
        println!("{files} old {kind}, {refused} of them refused, {reads} reads, {differences} differences");
    }
    if files.differences + days.differences == 0 {
        ExitCode::SUCCESS
    } else {
        ExitCode::FAILURE
    }
}

fn bounds(mut arguments: impl Iterator<Item = String>) -> Option<Bounds> {
    let mut bounds = Bounds { files: 20_000, days: 5_000, seed: 0 };
    while let Some(name) = arguments.next() {
        let number = arguments.next()?.parse().ok()?;
        match name.as_str() {
            "--files" => bounds.files = number,
            "--days" => bounds.days = number,
            "--seed" => bounds.seed = number,
            _ => return None,
        }
    }
    Some(bounds)
}
