//! Mutants of the reference: the paper's rules but for one, each to be found
//! out by generated pairs of alike files, or by a pair or a file worked by hand; and
//! wrong loaders, to be found out by the load cases. The same for days, whose
//! wrong loaders the hand-worked days find out; and wrong quotes and wrong writers, to be
//! found out by generated files and by files worked by hand.

pub mod by_hand;
pub mod day_admission;
pub mod day_by_hand;
pub mod day_list;
pub mod day_loader;
pub mod day_search;
pub mod day_wrong;
pub mod handlers;
pub mod list;
pub mod loader;
pub mod quote_search;
pub mod quoter;
pub mod search;
pub mod words;
pub mod writer;
pub mod writer_search;
pub mod wrong;
pub mod wrong_day_loaders;
pub mod wrong_loaders;
pub mod wrong_quotes;
pub mod wrong_writers;

/// How many generated pairs are tried.
pub const MOST_PAIRS: u64 = 20_000;
/// How many generated pairs of days are tried.
pub const MOST_DAY_PAIRS: u64 = 40_000;
/// How many generated files are tried to be quoted.
pub const MOST_QUOTES: u64 = 20_000;
/// How many generated files are tried to be printed.
pub const MOST_WRITTEN: u64 = 20_000;
