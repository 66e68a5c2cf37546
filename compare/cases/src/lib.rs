//! Hand-worked files, each with the ending or refusal that the paper demands.

pub mod blocks;
pub mod bodies;
pub mod bounds;
pub mod catching;
pub mod clearances;
pub mod days;
pub mod faults;
pub mod halves;
pub mod kept;
pub mod order;
pub mod paper;
pub mod parties;
pub mod quotes;
pub mod refusals;
pub mod values;
pub mod writing;

use reference::script::{Clauses, Code, Input, Script};
use reference::value::{Ending, Fault, Value};

#[derive(Clone, Debug)]
pub struct Case {
    pub name: String,
    pub file: Vec<u8>,
    pub expected: Expected,
}

#[derive(Clone, Copy, Debug, PartialEq, Eq)]
pub enum Expected {
    Refused(u8),
    Ends(Ending),
}

impl Expected {
    pub fn number(number: u32) -> Expected {
        Expected::Ends(Ending::Result(Value::Number(number)))
    }

    /// An uncaught fault whose number is 0.
    pub fn fault(code: u8) -> Expected {
        Expected::thrown(Fault::plain(code))
    }

    /// An uncaught fault.
    pub fn thrown(fault: Fault) -> Expected {
        Expected::Ends(Ending::Fault(fault))
    }
}

/// Writes some instructions.
type Write = fn(&mut Code);

/// Every case there is, but for those of [`writing`].
pub fn all() -> Vec<Case> {
    [
        paper::cases(),
        refusals::cases(),
        values::cases(),
        faults::cases(),
        halves::cases(),
        order::cases(),
        catching::cases(),
        clearances::cases(),
        kept::cases(),
        bodies::cases(),
        blocks::cases(),
        bounds::cases(),
        parties::cases(),
    ]
    .concat()
}

/// Indices into the labels of [`script`]. The clearance is of three principals,
/// so that `ABOVE` is above it.
pub mod label {
    pub const PUBLIC: u8 = 0;
    pub const CLEARANCE: u8 = 1;
    pub const PLAYER: u8 = 2;
    pub const DEALER: u8 = 3;
    pub const ABOVE: u8 = 4;
    /// Vouched for by the bench, so below the public label.
    pub const VOUCHED: u8 = 5;
}

/// Indices into the input records of [`script`].
pub mod record {
    pub const SEALED_PLAYER: u8 = 0;
    pub const SEALED_ABOVE: u8 = 1;
    pub const REFERENCE_PLAYER: u8 = 2;
    pub const REFERENCE_PUBLIC: u8 = 3;
    pub const REFERENCE_ABOVE: u8 = 4;
    pub const SEALED_PUBLIC: u8 = 5;
    pub const SEALED_DEALER: u8 = 6;
}

/// Places that the script below has left, at first.
pub const FREE_PLACES: u8 = 20;

/// The parts that most cases share. It starts public.
pub fn script(code: &Code) -> Script {
    let records = records();
    Script {
        labels: labels(),
        places: records.len() as u16 + u16::from(FREE_PLACES),
        records,
        code: code.bytes(),
        steps: 1000,
    }
}

/// The labels that the module [`label`] names.
fn labels() -> Vec<Clauses> {
    vec![
        Clauses::new(&[], &[]),
        Clauses::new(&[1, 2, 4], &[]),
        Clauses::new(&[1], &[]),
        Clauses::new(&[2], &[]),
        Clauses::new(&[0], &[]),
        Clauses::new(&[], &[4]),
    ]
}

/// The input records that the module [`record`] names.
fn records() -> Vec<Input> {
    vec![
        Input::sealed(label::PLAYER, 7),
        Input::sealed(label::ABOVE, 9),
        Input::reference(label::PLAYER, 5),
        Input::reference(label::PUBLIC, 6),
        Input::reference(label::ABOVE, 8),
        Input::sealed(label::PUBLIC, 1),
        Input::sealed(label::DEALER, 2),
    ]
}

/// A case on the shared parts.
fn case(name: impl Into<String>, expected: Expected, write: impl FnOnce(&mut Code)) -> Case {
    tuned(name, expected, write, |_| ())
}

/// A case on the shared parts, some of them changed.
fn tuned(
    name: impl Into<String>,
    expected: Expected,
    write: impl FnOnce(&mut Code),
    tune: impl FnOnce(&mut Script),
) -> Case {
    let mut code = Code::new();
    write(&mut code);
    let mut script = script(&code);
    tune(&mut script);
    Case { name: name.into(), file: script.bytes(), expected }
}
