//! The hirer and the repair desk, who came last. Which of them a set has says which word of
//! a table it is in: the first without both, then with the hirer, with the desk, and with
//! both. Flow tests that fail by one word alone, and what hangs on them.

use crate::{Case, Expected};
use reference::label::Label;
use reference::opcode::*;
use reference::script::{Clauses, Code, Input, Script};
use reference::table::Table;
use reference::value::{Ending, Fault, Value};

pub const HIRER: u8 = 64;
pub const DESK: u8 = 128;

pub fn cases() -> Vec<Case> {
    let mut cases = tables();
    for test in one_word_tests() {
        cases.extend([flows(&test), target(&test), clearance(&test), lower(&test), bound(&test)]);
    }
    cases.extend(joins());
    cases.extend(readers());
    cases
}

/// A flow test that fails in one half by one word alone.
pub struct OneWord {
    pub name: String,
    /// What a fault bears that tells of it.
    pub answer: u32,
    pub from: Clauses,
    pub to: Clauses,
}

/// For each word a formula, and another that does not imply it by that word alone.
const FORMULAS: [(&[u8], &[u8]); 4] =
    [(&[HIRER | DESK], &[]), (&[DESK], &[HIRER]), (&[HIRER], &[DESK]), (&[0], &[HIRER, DESK])];

pub fn one_word_tests() -> Vec<OneWord> {
    let test = |(word, (conclusion, premise)): (usize, (&[u8], &[u8]))| {
        let secrecy = OneWord {
            name: format!("secrecy, by word {word} alone"),
            answer: 1,
            from: Clauses::new(conclusion, &[]),
            to: Clauses::new(premise, &[]),
        };
        let integrity = OneWord {
            name: format!("integrity, by word {word} alone"),
            answer: 2,
            from: Clauses::new(&[], premise),
            to: Clauses::new(&[], conclusion),
        };
        [secrecy, integrity]
    };
    FORMULAS.into_iter().enumerate().flat_map(test).collect()
}

/// Indices into the labels of the test's files, behind start and clearance. There is a
/// record of each, so that it shows which of them a reader is shown.
const FROM: u8 = 2;
const TO: u8 = 3;

/// The highest clearance.
fn top() -> Clauses {
    Clauses::new(&[0], &[])
}

fn case(
    name: String,
    ending: Ending,
    test: &OneWord,
    bounds: [Clauses; 2],
    write: impl FnOnce(&mut Code),
) -> Case {
    let mut code = Code::new();
    write(&mut code);
    let [start, clearance] = bounds;
    let script = Script {
        labels: vec![start, clearance, test.from.clone(), test.to.clone()],
        records: vec![Input::sealed(FROM, 7), Input::reference(TO, 8)],
        code: code.bytes(),
        steps: 20,
        places: 4,
    };
    Case { name, file: script.bytes(), expected: Expected::Ends(ending) }
}

fn flows(test: &OneWord) -> Case {
    let ending = Ending::Result(Value::Number(0));
    case(format!("FLOWS fails in {}", test.name), ending, test, [Clauses::default(), top()], |code| {
        code.lab(FROM).lab(TO).op(FLOWS).end();
    })
}

fn target(test: &OneWord) -> Case {
    let ending = Ending::Fault(Fault::above_target(test.answer));
    case(format!("23 in {}", test.name), ending, test, [test.from.clone(), top()], |code| {
        code.push(1).lab(TO).op(SEAL).end();
    })
}

fn clearance(test: &OneWord) -> Case {
    let ending = Ending::Fault(Fault::above_clearance(test.answer));
    case(format!("24 in {}", test.name), ending, test, [test.to.clone(), test.to.clone()], |code| {
        code.input(0).op(OPEN).end();
    })
}

fn lower(test: &OneWord) -> Case {
    let ending = Ending::Fault(Fault::bad_lower(test.answer));
    case(format!("25 in {}", test.name), ending, test, [test.from.clone(), top()], |code| {
        code.lab(TO).op(LOWER).end();
    })
}

/// The body opens what does not flow to the bound.
fn bound(test: &OneWord) -> Case {
    let ending = Ending::Fault(Fault::ABOVE_BOUND);
    case(format!("31 for {}", test.name), ending, test, [test.to.clone(), top()], |code| {
        let body = code.target();
        code.op(CUR).block(body, 3, 0).op(OPEN).end();
        code.place(body).input(0).op(OPEN).end();
    })
}

/// Whom the last two bits of a mask stand for shows in the words.
fn tables() -> Vec<Case> {
    const PLAYER: u64 = 0xAAAA_AAAA_AAAA_AAAA;
    const ALL: u64 = u64::MAX;
    let formulas: [(&str, &[u8], [u64; 4]); 7] = [
        ("hirer", &[HIRER], [0, ALL, 0, ALL]),
        ("desk", &[DESK], [0, 0, ALL, ALL]),
        ("hirer or desk", &[HIRER | DESK], [0, ALL, ALL, ALL]),
        ("hirer and desk", &[HIRER, DESK], [0, 0, 0, ALL]),
        ("player or hirer", &[HIRER | 1], [PLAYER, ALL, PLAYER, ALL]),
        ("player and desk", &[1, DESK], [0, 0, PLAYER, PLAYER]),
        ("(player or hirer) and (player or desk)", &[HIRER | 1, DESK | 1], [PLAYER, PLAYER, PLAYER, ALL]),
    ];
    let case = |(name, masks, words): (&str, &[u8], [u64; 4])| {
        let label = Label { secrecy: Table(words), integrity: Table::TRUE };
        let labels = [Clauses::new(masks, &[]), Clauses::new(&[], masks)];
        gives(format!("the table of {name}"), label, labels, |code| _ = code.lab(2))
    };
    formulas.map(case).to_vec()
}

/// A file with these labels that gives a label.
fn gives(name: String, label: Label, labels: [Clauses; 2], write: impl FnOnce(&mut Code)) -> Case {
    let mut code = Code::new();
    write(&mut code);
    let [one, other] = labels;
    let script = Script {
        labels: vec![Clauses::default(), top(), one, other],
        records: vec![],
        code: code.end().bytes(),
        steps: 10,
        places: 0,
    };
    Case { name, file: script.bytes(), expected: Expected::Ends(Ending::Result(Value::Label(label))) }
}

/// The hirer's label, vouched for by the desk, with the desk's, vouched for by the hirer.
fn joins() -> Vec<Case> {
    const ALL: u64 = u64::MAX;
    let (either, both) = (Table([0, ALL, ALL, ALL]), Table([0, 0, 0, ALL]));
    let joined = Label { secrecy: both, integrity: either };
    let met = Label { secrecy: either, integrity: both };
    let labels = || [Clauses::new(&[HIRER], &[DESK]), Clauses::new(&[DESK], &[HIRER])];
    let of = |name: &str, label, write: fn(&mut Code)| gives(name.into(), label, labels(), write);
    vec![
        of("JOIN of hirer and desk", joined, |code| _ = code.lab(2).lab(3).op(JOIN)),
        of("MEET of hirer and desk", met, |code| _ = code.lab(2).lab(3).op(MEET)),
        of("RAISE by hirer and desk", Label { integrity: Table::TRUE, ..joined }, |code| {
            code.lab(2).op(RAISE).lab(3).ops(&[RAISE, CUR]);
        }),
    ]
}

/// A record of each formula that the last two principals can make by themselves, and each of
/// them reads: two and two of the formulas differ in one word alone.
fn readers() -> Vec<Case> {
    let formulas: [&[u8]; 6] = [&[], &[0], &[HIRER], &[DESK], &[HIRER | DESK], &[HIRER, DESK]];
    let case = |name: &str, labels: Vec<Clauses>| {
        let records: Vec<Input> = (0..labels.len() as u8).map(|label| Input::sealed(label, 7)).collect();
        let places = records.len() as u16;
        let script = Script { labels, records, code: Code::new().push(5).end().bytes(), steps: 10, places };
        Case { name: name.into(), file: script.bytes(), expected: Expected::number(5) }
    };
    let mut by_integrity = formulas.map(|masks| Clauses::new(&[], masks)).to_vec();
    // What no one can vouch for flows to all, and all flows to what anyone may have made.
    by_integrity[..2].reverse();
    vec![
        case("records of hirer and desk", formulas.map(|masks| Clauses::new(masks, &[])).to_vec()),
        case("records that hirer and desk vouch for", by_integrity),
    ]
}
