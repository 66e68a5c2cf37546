//! What the machine works on: values, faults and records.

use crate::label::Label;

#[derive(Clone, Copy, Debug, PartialEq, Eq)]
pub enum Value {
    Number(u32),
    Label(Label),
    /// A handle: the place of a sealed record.
    Sealed(u8),
    /// A handle: the place of a reference.
    Reference(u8),
}

impl Value {
    pub const ZERO: Value = Value::Number(0);

    #[inline]
    pub fn handle(kind: Kind, place: u8) -> Value {
        match kind {
            Kind::Sealed => Value::Sealed(place),
            Kind::Reference => Value::Reference(place),
        }
    }

    /// The place that a handle leads to.
    pub fn place(self) -> Option<u8> {
        match self {
            Value::Sealed(place) | Value::Reference(place) => Some(place),
            Value::Number(_) | Value::Label(_) => None,
        }
    }
}

#[derive(Clone, Copy, Debug, PartialEq, Eq)]
pub struct Fault {
    pub code: u8,
    pub number: u32,
}

impl Fault {
    pub const TOO_FEW_OPERANDS: Fault = Fault::plain(20);
    pub const STACK_FULL: Fault = Fault::plain(21);
    pub const WRONG_KIND: Fault = Fault::plain(22);
    pub const NO_PLACE: Fault = Fault::plain(26);
    pub const NO_STEPS: Fault = Fault::plain(27);
    pub const TOO_DEEP: Fault = Fault::plain(28);
    pub const FRAMES: Fault = Fault::plain(29);
    /// The outcome of a body whose final label does not flow to the bound.
    pub const ABOVE_BOUND: Fault = Fault::plain(31);
    /// The outcome of a body that was spent.
    pub const SPENT: Fault = Fault::plain(32);
    /// What a handle in an input record becomes once a job's new records vanish.
    pub const VANISHED: Fault = Fault::plain(33);

    pub const fn plain(code: u8) -> Fault {
        Fault { code, number: 0 }
    }

    pub const fn thrown(number: u32) -> Fault {
        Fault { code: 30, number }
    }

    // The faults of a failed flow test bear its answer.

    /// The current label does not flow to the target.
    pub const fn above_target(answer: u32) -> Fault {
        Fault { code: 23, number: answer }
    }

    pub const fn above_clearance(answer: u32) -> Fault {
        Fault { code: 24, number: answer }
    }

    pub const fn bad_lower(answer: u32) -> Fault {
        Fault { code: 25, number: answer }
    }
}

#[derive(Clone, Copy, Debug, PartialEq, Eq)]
pub enum Kind {
    Sealed = 0,
    Reference = 1,
}

#[derive(Clone, Copy, Debug, PartialEq, Eq)]
pub enum Content {
    Value(Value),
    Fault(Fault),
}

#[derive(Clone, Copy, Debug, PartialEq, Eq)]
pub struct Record {
    pub kind: Kind,
    pub label: Label,
    pub content: Content,
}

/// How a run ended.
#[derive(Clone, Copy, Debug, PartialEq, Eq)]
pub enum Ending {
    Result(Value),
    Fault(Fault),
    Spent,
}
