//! Says what the files and the days of seeds 0 to COUNT - 1 reach, and what those to be
//! quoted do. Fails if a point is missed, or if a run uses more than its quote.

use generator::coverage::Coverage;
use generator::day_coverage::DayCoverage;
use generator::quote_coverage::QuoteCoverage;
use generator::{days, forward};
use std::process::ExitCode;

fn main() -> ExitCode {
    let count = match std::env::args().nth(1).map(|count| count.parse()) {
        None => 20_000,
        Some(Ok(count)) => count,
        Some(Err(_)) => {
            eprintln!("usage: coverage [COUNT]");
            return ExitCode::FAILURE;
        }
    };
    let (of_files, of_days) = (Coverage::default(), DayCoverage::default());
    let mut of_quotes = QuoteCoverage::default();
    for seed in 0..count {
        of_files.add(&generator::any(seed));
        of_days.add(&days::any(seed));
        of_quotes.add(&forward::any(seed));
    }
    print!("{of_files}\n{of_days}\n{of_quotes}");
    if of_quotes.overruns > 0 {
        eprintln!("coverage: {} runs use more than their quote", of_quotes.overruns);
        return ExitCode::FAILURE;
    }
    if of_files.missing().is_empty() && of_days.missing().is_empty() && of_quotes.missing().is_empty() {
        ExitCode::SUCCESS
    } else {
        eprintln!("coverage: {count} files, days and quotes miss some points");
        ExitCode::FAILURE
    }
}
