//! Check 5: whether label 0 flows to label 1.

use crate::Answer::{self, Loaded, Refused};
use crate::{case, plain_but, Case};
use reference::script::Clauses;

/// Secrecy and integrity.
type Label = (&'static [u8], &'static [u8]);

const PUBLIC: Label = (&[], &[]);
const PLAYER: Label = (&[1], &[]);
const DEALER: Label = (&[2], &[]);
const EITHER: Label = (&[3], &[]);
const BOTH: Label = (&[1, 2], &[]);
const NO_ONE: Label = (&[0], &[]);
const BY_BENCH: Label = (&[], &[4]);
const BY_EITHER: Label = (&[], &[3]);
const BY_PLAYER: Label = (&[], &[1]);
const BY_BOTH: Label = (&[], &[1, 2]);
const BY_NO_ONE: Label = (&[], &[0]);
const HIRER: Label = (&[64], &[]);
const DESK: Label = (&[128], &[]);
const HIRER_OR_DESK: Label = (&[192], &[]);
const HIRER_AND_DESK: Label = (&[64, 128], &[]);
const BY_HIRER: Label = (&[], &[64]);
const BY_DESK: Label = (&[], &[128]);
const BY_HIRER_OR_DESK: Label = (&[], &[192]);
const BY_HIRER_AND_DESK: Label = (&[], &[64, 128]);

/// Each flows from the first to the second; none flows back.
const ONE_WAY: [(&str, Label, Label); 25] = [
    ("public to player", PUBLIC, PLAYER),
    ("player or dealer to player", EITHER, PLAYER),
    ("player to player and dealer", PLAYER, BOTH),
    ("player or dealer to player and dealer", EITHER, BOTH),
    ("true to false secrecy", PUBLIC, NO_ONE),
    ("player to false secrecy", PLAYER, NO_ONE),
    ("(player or dealer) and bench to player and bench", (&[3, 4], &[]), (&[1, 4], &[])),
    ("guest or record company to guest", (&[48], &[]), (&[32], &[])),
    ("bench to any integrity", BY_BENCH, PUBLIC),
    ("player to player or dealer of integrity", BY_PLAYER, BY_EITHER),
    ("player and dealer to player of integrity", BY_BOTH, BY_PLAYER),
    ("false to true integrity", BY_NO_ONE, PUBLIC),
    ("false to player integrity", BY_NO_ONE, BY_PLAYER),
    ("vouched for to secret", BY_BENCH, PLAYER),
    ("secrecy up and integrity kept", (&[], &[4]), (&[1], &[4])),
    ("secrecy kept and integrity down", (&[1], &[4]), (&[1], &[])),
    ("lowest to highest", BY_NO_ONE, NO_ONE),
    ("public to hirer or desk", PUBLIC, HIRER_OR_DESK),
    ("hirer or desk to desk", HIRER_OR_DESK, DESK),
    ("hirer to hirer and desk", HIRER, HIRER_AND_DESK),
    ("hirer and desk to false secrecy", HIRER_AND_DESK, NO_ONE),
    ("hirer or desk to any integrity", BY_HIRER_OR_DESK, PUBLIC),
    ("desk to hirer or desk of integrity", BY_DESK, BY_HIRER_OR_DESK),
    ("hirer and desk to hirer of integrity", BY_HIRER_AND_DESK, BY_HIRER),
    ("false to hirer and desk integrity", BY_NO_ONE, BY_HIRER_AND_DESK),
];

/// Neither flows to the other.
const APART: [(&str, Label, Label); 7] = [
    ("player and dealer", PLAYER, DEALER),
    ("player and vouched for", PLAYER, (&[2], &[4])),
    ("public and vouched for player", PUBLIC, (&[1], &[4])),
    ("integrity of player and of bench", BY_PLAYER, BY_BENCH),
    ("public and false twice", PUBLIC, (&[0], &[0])),
    ("hirer and desk", HIRER, DESK),
    ("integrity of hirer and of desk", BY_HIRER, BY_DESK),
];

const ALONE: [(&str, Label); 4] = [
    ("public", PUBLIC),
    ("false secrecy", NO_ONE),
    ("false integrity", BY_NO_ONE),
    ("a label", (&[1, 2], &[4])),
];

pub fn cases() -> Vec<Case> {
    let mut cases = Vec::new();
    for (name, low, high) in ONE_WAY {
        cases.push(start(format!("start {name}"), Loaded, low, high));
        cases.push(start(format!("start not back from {name}"), Refused(5), high, low));
    }
    for (name, one, other) in APART {
        cases.push(start(format!("start of two apart, {name}"), Refused(5), one, other));
        cases.push(start(format!("start of two apart, turned, {name}"), Refused(5), other, one));
    }
    cases.extend(ALONE.map(|(name, label)| start(format!("start {name} to itself"), Loaded, label, label)));
    cases.push(start("start a vouched for label to itself", Loaded, (&[1], &[2, 4]), (&[1], &[2, 4])));
    cases
}

fn start(name: impl Into<String>, demanded: Answer, from: Label, to: Label) -> Case {
    let labels = [from, to].map(|(secrecy, integrity)| Clauses::new(secrecy, integrity));
    case(name, demanded, plain_but(|script| script.labels = labels.to_vec()))
}
