//! Quotes with one rule wrong.

use crate::quoter::{is_aimed, own_cost, own_ways, sum, Instruction, Quoter, PAPER};
use reference::opcode::*;
use reference::Quote;

pub struct WrongQuote {
    pub name: &'static str,
    /// What it does instead of the paper's rule.
    pub says: &'static str,
    pub quoter: Quoter,
}

pub fn all() -> Vec<WrongQuote> {
    [FIGURES, WAYS, COSTS, CHECKS].concat().into_iter().map(wrong).collect()
}

type Rule = (&'static str, &'static str, fn(&mut Quoter));

fn wrong((name, says, change): Rule) -> WrongQuote {
    let mut quoter = PAPER;
    change(&mut quoter);
    WrongQuote { name, says, quoter }
}

/// The paper's cost, with other steps or places.
fn with_steps(one: &Instruction, steps: u32) -> Quote {
    Quote { steps, ..own_cost(one) }
}

fn with_places(one: &Instruction, places: u32) -> Quote {
    Quote { places, ..own_cost(one) }
}

/// The paper's cost, but for an opcode that costs no step, or no place.
fn without_step(opcode: u8, one: &Instruction) -> Quote {
    let own = own_cost(one);
    if one.opcode == opcode {
        with_steps(one, own.steps - 1)
    } else {
        own
    }
}

fn without_place(opcode: u8, one: &Instruction) -> Quote {
    if one.opcode == opcode {
        with_places(one, 0)
    } else {
        own_cost(one)
    }
}

/// The paper's cost, but for an opcode that costs a place.
fn with_place(opcode: u8, one: &Instruction) -> Quote {
    if one.opcode == opcode {
        with_places(one, 1)
    } else {
        own_cost(one)
    }
}

/// The paper's cost, but for BLOCK.
fn block(one: &Instruction, cost: Quote) -> Quote {
    if one.opcode == BLOCK {
        cost
    } else {
        own_cost(one)
    }
}

/// The paper's ways, but for an opcode that goes on with these.
fn other_ways(opcode: u8, one: &Instruction, ways: &[usize]) -> Vec<usize> {
    if one.opcode == opcode {
        ways.to_vec()
    } else {
        own_ways(one)
    }
}

/// Whether check 11 has nothing against an instruction, or it has this opcode.
fn allows_too(opcode: u8, one: &Instruction) -> bool {
    one.opcode == opcode || (PAPER.allows)(one)
}

/// What is made of the ways and told in the end.
const FIGURES: &[Rule] = &[
    ("StepsPath", "both figures are of the path with the most steps", |quoter| {
        quoter.either = |one, other| {
            if (one.steps, one.places) > (other.steps, other.places) {
                one
            } else {
                other
            }
        }
    }),
    ("PlacesPath", "both figures are of the path with the most places", |quoter| {
        quoter.either = |one, other| {
            if (one.places, one.steps) > (other.places, other.steps) {
                one
            } else {
                other
            }
        }
    }),
    ("LeastPath", "the least of both ways is taken", |quoter| {
        quoter.either =
            |one, other| Quote { steps: one.steps.min(other.steps), places: one.places.min(other.places) }
    }),
    ("LeastSteps", "the least steps and the most places are taken", |quoter| {
        quoter.either =
            |one, other| Quote { steps: one.steps.min(other.steps), places: one.places.max(other.places) }
    }),
    ("WaysAdded", "both ways of an IFZ are added", |quoter| quoter.either = sum),
    ("AllAdded", "all instructions are added up", |quoter| quoter.ways = |one| vec![one.next]),
    ("StepsWrap", "steps are told modulo 2^16", |quoter| {
        quoter.told = |quote, _| Quote { steps: quote.steps % 65_536, ..quote }
    }),
    ("PlacesWrap", "places are told modulo 2^16", |quoter| {
        quoter.told = |quote, _| Quote { places: quote.places % 65_536, ..quote }
    }),
    ("PlacesByte", "places are told modulo 2^8", |quoter| {
        quoter.told = |quote, _| Quote { places: quote.places % 256, ..quote }
    }),
    ("StepsClipped", "steps are told up to 65,535", |quoter| {
        quoter.told = |quote, _| Quote { steps: quote.steps.min(65_535), ..quote }
    }),
    ("PlacesClipped", "places are told up to 256", |quoter| {
        quoter.told = |quote, _| Quote { places: quote.places.min(256), ..quote }
    }),
    ("StepsCapped", "steps are told up to S", |quoter| {
        quoter.told = |quote, header| Quote { steps: quote.steps.min(header.steps as u32), ..quote }
    }),
    ("PlacesCapped", "places are told up to K", |quoter| {
        quoter.told = |quote, header| Quote { places: quote.places.min(header.places as u32), ..quote }
    }),
    ("FreeCapped", "places are told up to K less C", |quoter| {
        quoter.told = |quote, header| Quote {
            places: quote.places.min((header.places - header.records) as u32),
            ..quote
        }
    }),
    ("InputsCounted", "input records are counted as places", |quoter| {
        quoter.told = |quote, header| Quote { places: quote.places + header.records as u32, ..quote }
    }),
];

/// Where a path goes on.
const WAYS: &[Rule] = &[
    ("IfzTarget", "IFZ goes to its target alone", |quoter| {
        quoter.ways = |one| other_ways(IFZ, one, &[one.target])
    }),
    ("IfzNext", "IFZ goes on behind itself alone", |quoter| {
        quoter.ways = |one| other_ways(IFZ, one, &[one.next])
    }),
    ("ThrowPassed", "THROW goes on behind itself", |quoter| {
        quoter.ways = |one| other_ways(THROW, one, &[one.next])
    }),
    ("EndPassed", "END goes on behind itself", |quoter| {
        quoter.ways = |one| other_ways(END, one, &[one.next])
    }),
    ("DoneStops", "DONE stops a path, as it faults without TRY", |quoter| {
        quoter.ways = |one| other_ways(DONE, one, &[])
    }),
    ("JumpPassed", "JUMP goes on behind itself as well", |quoter| {
        quoter.ways = |one| other_ways(JUMP, one, &[one.target, one.next])
    }),
    ("JumpNext", "JUMP goes on behind itself alone", |quoter| {
        quoter.ways = |one| other_ways(JUMP, one, &[one.next])
    }),
    ("JumpStops", "JUMP stops a path", |quoter| quoter.ways = |one| other_ways(JUMP, one, &[])),
    ("BlockForks", "BLOCK goes to its body as well", |quoter| {
        quoter.ways = |one| other_ways(BLOCK, one, &[one.target, one.next])
    }),
    ("BlockEnters", "BLOCK goes to its body alone", |quoter| {
        quoter.ways = |one| other_ways(BLOCK, one, &[one.target])
    }),
];

/// What instructions cost.
const COSTS: &[Rule] = &[
    ("BlockSteps", "BLOCK costs n steps", |quoter| {
        quoter.cost = |one, _| block(one, with_steps(one, one.lends.steps))
    }),
    ("BlockOneStep", "BLOCK costs 1 step", |quoter| quoter.cost = |one, _| block(one, with_steps(one, 1))),
    ("BlockPlaces", "BLOCK costs k places", |quoter| {
        quoter.cost = |one, _| block(one, with_places(one, one.lends.places))
    }),
    ("BlockOnePlace", "BLOCK costs 1 place", |quoter| quoter.cost = |one, _| block(one, with_places(one, 1))),
    ("BlockStepsWrap", "BLOCK costs 1 + n steps modulo 2^16", |quoter| {
        quoter.cost = |one, _| block(one, with_steps(one, (1 + one.lends.steps) % 65_536))
    }),
    ("BlockPlacesWrap", "BLOCK costs k + 1 places modulo 2^8", |quoter| {
        quoter.cost = |one, _| block(one, with_places(one, (1 + one.lends.places) % 256))
    }),
    ("BlockStepsLow", "of n the low byte alone is counted", |quoter| {
        quoter.cost = |one, _| block(one, with_steps(one, 1 + one.lends.steps % 256))
    }),
    ("BlockStepsSwapped", "n is read with its high byte first", |quoter| {
        quoter.cost =
            |one, _| block(one, with_steps(one, 1 + u32::from((one.lends.steps as u16).swap_bytes())))
    }),
    ("BodyAdded", "BLOCK costs what its body costs as well", |quoter| {
        quoter.cost = |one, body| block(one, sum(own_cost(one), body))
    }),
    ("BodyInstead", "BLOCK costs what its body costs instead of n and k", |quoter| {
        quoter.cost = |one, body| block(one, sum(Quote { steps: 1, places: 1 }, body))
    }),
    ("BodyAtMost", "BLOCK costs no more than its body does", |quoter| {
        quoter.cost = |one, body| {
            let (steps, places) = (one.lends.steps.min(body.steps), one.lends.places.min(body.places));
            block(one, Quote { steps: 1 + steps, places: 1 + places })
        }
    }),
    ("SealFree", "SEAL costs no place", |quoter| quoter.cost = |one, _| without_place(SEAL, one)),
    ("NewFree", "NEW costs no place", |quoter| quoter.cost = |one, _| without_place(NEW, one)),
    ("WritePlace", "WRITE costs a place", |quoter| quoter.cost = |one, _| with_place(WRITE, one)),
    ("OpenPlace", "OPEN costs a place", |quoter| quoter.cost = |one, _| with_place(OPEN, one)),
    ("InputPlace", "INPUT costs a place", |quoter| quoter.cost = |one, _| with_place(INPUT, one)),
    ("JumpFree", "JUMP costs no step", |quoter| quoter.cost = |one, _| without_step(JUMP, one)),
    ("IfzFree", "IFZ costs no step", |quoter| quoter.cost = |one, _| without_step(IFZ, one)),
    ("EndFree", "END costs no step", |quoter| quoter.cost = |one, _| without_step(END, one)),
    ("ThrowFree", "THROW costs no step", |quoter| quoter.cost = |one, _| without_step(THROW, one)),
    ("DoneFree", "DONE costs no step", |quoter| quoter.cost = |one, _| without_step(DONE, one)),
];

/// What is refused, and in which order.
const CHECKS: &[Rule] = &[
    ("ItselfAhead", "a target that is its own instruction is ahead", |quoter| {
        quoter.allows = |one| one.opcode != TRY && (!is_aimed(one) || one.target >= one.at)
    }),
    ("NextNotAhead", "a target that is the next instruction is not ahead", |quoter| {
        quoter.allows = |one| (PAPER.allows)(one) && (!is_aimed(one) || one.target > one.next)
    }),
    ("LowByteAhead", "the low bytes of target and start are compared", |quoter| {
        quoter.allows = |one| one.opcode != TRY && (!is_aimed(one) || one.target % 256 > one.at % 256)
    }),
    ("JumpUnchecked", "JUMP's target is not looked at", |quoter| quoter.allows = |one| allows_too(JUMP, one)),
    ("IfzUnchecked", "IFZ's target is not looked at", |quoter| quoter.allows = |one| allows_too(IFZ, one)),
    ("BlockUnchecked", "BLOCK's target is not looked at", |quoter| {
        quoter.allows = |one| allows_too(BLOCK, one)
    }),
    ("TryTaken", "TRY is let through", |quoter| quoter.allows = |one| allows_too(TRY, one)),
    ("TryAhead", "TRY is let through if its handler is ahead", |quoter| {
        quoter.allows = |one| (PAPER.allows)(one) || one.opcode == TRY && one.target > one.at
    }),
    ("TryFirst", "TRY is let through as the first instruction", |quoter| {
        quoter.allows = |one| (PAPER.allows)(one) || one.opcode == TRY && one.at == 0
    }),
    ("DeadTry", "TRY is let through where no path comes", |quoter| {
        quoter.looks_at = |one, reached| reached || one.opcode != TRY
    }),
    ("DeadTargets", "a target is looked at only where a path comes", |quoter| {
        quoter.looks_at = |one, reached| reached || one.opcode == TRY
    }),
    ("LiveTry", "TRY is refused only where no path comes", |quoter| {
        quoter.looks_at = |one, reached| !reached || one.opcode != TRY
    }),
    ("TryBytes", "a byte 1A is refused in operands, too", |quoter| {
        quoter.allows_bytes = |code| !code.contains(&TRY)
    }),
    ("DoneRefused", "DONE is refused as TRY is", |quoter| {
        quoter.allows = |one| one.opcode != DONE && (PAPER.allows)(one)
    }),
    ("BlockRefused", "BLOCK is refused as TRY is", |quoter| {
        quoter.allows = |one| one.opcode != BLOCK && (PAPER.allows)(one)
    }),
    ("AheadBeforeCode", "check 11 before check 7", |quoter| quoter.order = &[1, 2, 3, 4, 5, 6, 11, 7]),
    ("AheadBeforeRecords", "check 11 before check 6", |quoter| quoter.order = &[1, 2, 3, 4, 5, 11, 6, 7]),
    ("AheadBeforeStart", "check 11 before check 5", |quoter| quoter.order = &[1, 2, 3, 4, 11, 5, 6, 7]),
    ("StepsUnchecked", "check 2 takes 0 steps", |quoter| quoter.loader.steps = 0..=65_535),
    ("PlacesUnchecked", "check 2 does not look at K", |quoter| {
        quoter.loader.fewest_places = |_| 0;
        quoter.loader.most_places = 65_535;
    }),
    ("StartUnchecked", "check 5 is left out", |quoter| quoter.order = &[1, 2, 3, 4, 6, 7, 11]),
    ("RecordsUnchecked", "check 6 is left out", |quoter| quoter.order = &[1, 2, 3, 4, 5, 7, 11]),
    ("CodeUnchecked", "check 7 is left out", |quoter| quoter.order = &[1, 2, 3, 4, 5, 6, 11]),
];
