//! Hand-worked files to be quoted, each with the quote or the refusal that the papers
//! demand.

pub mod ahead;
pub mod costs;
pub mod figures;
pub mod paths;
pub mod refusals;

use crate::script;
use reference::script::{Code, Script};
use reference::Quote;

#[derive(Clone, Debug)]
pub struct QuoteCase {
    pub name: String,
    pub file: Vec<u8>,
    pub expected: Result<Quote, u8>,
}

/// Every case there is.
pub fn all() -> Vec<QuoteCase> {
    [refusals::cases(), ahead::cases(), costs::cases(), paths::cases(), figures::cases()].concat()
}

/// A case whose costliest paths take so many steps and places.
fn quoted(name: impl Into<String>, steps: u32, places: u32, write: impl FnOnce(&mut Code)) -> QuoteCase {
    let mut code = Code::new();
    write(&mut code);
    of(name, Ok(Quote { steps, places }), &script(&code))
}

/// [`quoted`], with the code as it is.
fn quoted_bytes(name: impl Into<String>, steps: u32, places: u32, code: &[u8]) -> QuoteCase {
    of(name, Ok(Quote { steps, places }), &with_code(code))
}

/// A case that is refused for its code, as it is.
fn refused(name: impl Into<String>, refusal: u8, code: &[u8]) -> QuoteCase {
    of(name, Err(refusal), &with_code(code))
}

fn with_code(code: &[u8]) -> Script {
    Script { code: code.to_vec(), ..script(&Code::new()) }
}

fn of(name: impl Into<String>, expected: Result<Quote, u8>, script: &Script) -> QuoteCase {
    QuoteCase { name: name.into(), file: script.bytes(), expected }
}
