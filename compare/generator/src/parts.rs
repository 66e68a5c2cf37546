//! The parts of a script around its code: labels, records, allotments.

use crate::parties::Parties;
use crate::random::Random;
use reference::label::Label;
use reference::script::{Clauses, Input};
use reference::table::formula;

/// Formulas that often stand in an order to one another.
const SECRECY: [&[u8]; 8] = [&[], &[1], &[2], &[1, 2], &[3], &[4], &[1, 2, 4], &[0]];
const INTEGRITY: [&[u8]; 7] = [&[], &[], &[], &[4], &[4, 8], &[12], &[1]];

/// Labels: the first two a start and a clearance, mostly far apart.
pub fn labels(random: &mut Random, parties: Parties) -> Vec<Clauses> {
    let mut labels = cast_labels(random, parties);
    parties.recast(random, &mut labels);
    labels
}

/// Labels in which the first four principals have the most to say.
fn cast_labels(random: &mut Random, parties: Parties) -> Vec<Clauses> {
    let count = if random.chance(3) { 32 } else { random.within(3, 8) };
    let mut labels: Vec<Clauses> = (0..count).map(|_| label(random, parties)).collect();
    if random.chance(25) {
        (labels[0], labels[1]) = narrow(random);
        return labels;
    }
    if random.chance(85) {
        labels[0] = Clauses::new(&[], random.pick(&[&[], &[], &[4]]));
    }
    labels[1] = match random.below(10) {
        0 => labels[0].clone(),
        1 | 2 => Clauses::new(&[1], &[]),
        3..=5 => Clauses::new(&[1, 2, 4], &[]),
        _ => Clauses::new(&[0], &[]),
    };
    if !flows(&labels[0], &labels[1]) {
        labels[0] = Clauses::default();
        labels[1] = Clauses::new(&[0], &[]);
    }
    labels
}

/// A start and a clearance with other labels below them, above and aside, by secrecy
/// as well as by integrity.
fn narrow(random: &mut Random) -> (Clauses, Clauses) {
    let start = Clauses::new(random.pick(&[&[1], &[3]]), random.pick(&[&[4][..], &[4, 8]]));
    let clearance = Clauses::new(random.pick(&[&[1][..], &[1, 2], &[1, 2, 4]]), random.pick(&[&[4], &[12]]));
    (start, clearance)
}

pub fn flows(from: &Clauses, to: &Clauses) -> bool {
    let table = |masks: &[u8]| formula(masks).expect("generated lists are well formed");
    let label =
        |clauses: &Clauses| Label { secrecy: table(&clauses.secrecy), integrity: table(&clauses.integrity) };
    label(from).flows_to(label(to))
}

fn label(random: &mut Random, parties: Parties) -> Clauses {
    if random.chance(15) {
        return Clauses { secrecy: any_formula(random, parties), integrity: any_formula(random, parties) };
    }
    Clauses::new(random.pick(&SECRECY), random.pick(&INTEGRITY))
}

/// Any well-formed list of clauses, from none to the longest.
fn any_formula(random: &mut Random, parties: Parties) -> Vec<u8> {
    if random.chance(10) {
        // Any part of the longest list is well formed, too.
        let kept = random.pick(&[100, 100, 90, 50]);
        return parties.longest_formula().into_iter().filter(|_| random.chance(kept)).collect();
    }
    let density = random.within(1, 20);
    let mut masks: Vec<u8> = Vec::new();
    for mask in parties.masks().skip(1) {
        if random.chance(density) && !masks.iter().any(|&earlier| earlier & !mask == 0) {
            masks.push(mask);
        }
    }
    masks
}

/// Records of both kinds, each under any of `labels` labels.
pub fn records(random: &mut Random, labels: usize) -> Vec<Input> {
    let count = match random.below(20) {
        0 => 0,
        1 => 64,
        _ => random.within(2, 8),
    };
    (0..count)
        .map(|_| Input {
            kind: random.below(2) as u8,
            label: random.below(labels) as u8,
            number: number(random),
        })
        .collect()
}

/// Mostly numbers on which a branch may go either way.
pub fn number(random: &mut Random) -> u32 {
    match random.below(10) {
        0..=3 => 0,
        4..=6 => 1,
        7 => random.below(6) as u32,
        8 => u32::MAX - random.below(3) as u32,
        _ => random.word() as u32,
    }
}

/// Steps and places: mostly enough, often not quite.
pub fn allotment(random: &mut Random, records: usize) -> (u16, u16) {
    let steps = match random.below(20) {
        0 => random.within(1, 20),
        1..=4 => random.within(1, 150),
        5 => 65_535,
        _ => random.within(150, 1500),
    };
    let free = match random.below(10) {
        0 => 256 - records,
        1 | 2 => random.within(0, 8),
        _ => random.within(8, 40),
    };
    (steps as u16, (records + free.min(256 - records)) as u16)
}
