//! Comparing quotes: implementations with one another and with the list of all paths,
//! and every quote with what views tell of runs.

use crate::compare::Comparison;
use crate::trial::{Implementation, IMPLEMENTATIONS};
use generator::random::Random;
use generator::{paths, spending};
use reference::file::File;
use reference::limits::{header, view, MAX_VIEW};
use reference::parts::short;
use reference::Quote;

/// Paths are listed where they are no more than these.
const MOST_PATHS: usize = 300;

impl Comparison {
    /// Has `file` quoted by every implementation. If it can be quoted and its paths are
    /// few, the quote is to be what they make it; and no view may tell of a run that used
    /// more, with these numbers and others.
    pub fn quote(&mut self, name: &str, file: &[u8], random: &mut Random) {
        self.quotes += 1;
        let right = reference::quote(file);
        self.expected_quote(name, file, right);
        let Ok(quote) = right else { return };
        let parsed = File::parse(file).expect("a quoted file is valid");
        if paths::quote(parsed.parts.code, MOST_PATHS).is_some_and(|most| most != quote) {
            self.differ_in_quote(name, &format!("{quote} is not what the paths make it"), file);
        }
        for variant in spending::variants(random, file) {
            self.spending(name, &variant, quote, parsed.parts.labels().len());
        }
    }

    /// Compares every implementation's answer with one that is known.
    pub fn expected_quote(&mut self, name: &str, file: &[u8], expected: Result<Quote, u8>) {
        for implementation in IMPLEMENTATIONS {
            let found = (implementation.quote)(file);
            if found != expected {
                let what = format!("{} quotes {found:?}, not {expected:?}", implementation.name);
                self.differ_in_quote(name, &what, file);
            }
        }
    }

    /// Looks at what every implementation's views tell of steps and places.
    fn spending(&mut self, name: &str, file: &[u8], quote: Quote, labels: usize) {
        for implementation in IMPLEMENTATIONS {
            for reader in 0..labels {
                self.reads += 1;
                let holds = told(implementation, file, reader)
                    .is_some_and(|used| used.steps <= quote.steps && used.places <= quote.places);
                if !holds {
                    let what = format!("{} runs past {quote}, for reader {reader}", implementation.name);
                    self.differ_in_quote(name, &what, file);
                }
            }
        }
    }
}

/// The steps and places that a run used, as a view tells; none of either if it is hidden,
/// and nothing if there is no view.
fn told(implementation: &Implementation, file: &[u8], reader: usize) -> Option<Quote> {
    let mut buffer = [0; MAX_VIEW];
    (implementation.read)(file, reader, &mut buffer).ok()?;
    if short(&buffer, view::ENDING) == 0 {
        return Some(Quote::default());
    }
    let taken = short(&buffer, view::NEXT_PLACE).checked_sub(short(file, header::RECORD_COUNT))?;
    Some(Quote { steps: short(&buffer, view::STEPS).into(), places: taken.into() })
}

#[cfg(test)]
mod tests {
    use super::*;
    use generator::forward;

    #[test]
    fn the_reference_has_no_differences() {
        let mut comparison = Comparison::default();
        for seed in 0..200 {
            comparison.quote("", &forward::any(seed), &mut Random::new(seed));
        }
        assert_eq!((comparison.quotes, comparison.differences), (200, 0));
    }

    #[test]
    fn a_wrong_quote_and_a_run_past_its_quote_are_differences() {
        let file = forward::valid(1);
        let right = reference::quote(&file).expect("a quotable file");
        let mut comparison = Comparison::default();
        comparison.expected_quote("a wrong one", &file, Ok(Quote { steps: right.steps + 1, ..right }));
        assert_eq!(comparison.differences, IMPLEMENTATIONS.len() as u64);
        let labels = File::parse(&file).expect("a valid file").parts.labels().len();
        comparison.spending("nothing is quoted", &file, Quote::default(), labels);
        assert!(comparison.differences > IMPLEMENTATIONS.len() as u64);
    }
}
