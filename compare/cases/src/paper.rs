//! The paper's own cases: its example, P1 to P12 and "Others". P1 to P8 are about labels
//! alone, and here about what LAB, FLOWS and JOIN give.

use crate::{case, label, record, tuned, Case, Expected};
use reference::label::Label;
use reference::opcode::{FLOWS, JOIN, OPEN, POP};
use reference::script::{Clauses, Code, Input, Script};
use reference::table::Table;
use reference::value::{Ending, Fault, Value};

pub fn cases() -> Vec<Case> {
    let mut cases = vec![example()];
    cases.extend(p1_to_p5());
    cases.extend(p6_to_p8());
    cases.extend([p9(), p10(), p11(), p12()]);
    cases.extend(others());
    cases
}

pub fn example() -> Case {
    let mut code = Code::new();
    code.push(5).end();
    let script = Script {
        labels: vec![Clauses::new(&[], &[]), Clauses::new(&[0], &[])],
        records: vec![],
        code: code.bytes(),
        steps: 10,
        places: 0,
    };
    Case { name: "the example".into(), file: script.bytes(), expected: Expected::number(5) }
}

/// A file of these labels behind a public start and the highest clearance.
fn of_labels(name: &str, value: Value, labels: &[Clauses], write: impl FnOnce(&mut Code)) -> Case {
    let mut code = Code::new();
    write(&mut code);
    let first = [Clauses::default(), Clauses::new(&[0], &[])];
    let script = Script {
        labels: [&first[..], labels].concat(),
        records: vec![],
        code: code.end().bytes(),
        steps: 10,
        places: 0,
    };
    Case { name: name.into(), file: script.bytes(), expected: Expected::Ends(Ending::Result(value)) }
}

/// The same word four times: the last two principals have no say.
fn p1_to_p5() -> Vec<Case> {
    let formulas: [(&str, &[u8], u64); 5] = [
        ("P1", &[], u64::MAX),
        ("P2", &[1], 0xAAAA_AAAA_AAAA_AAAA),
        ("P3", &[3], 0xEEEE_EEEE_EEEE_EEEE),
        ("P4", &[1, 2], 0x8888_8888_8888_8888),
        ("P5", &[0], 0),
    ];
    let case = |(name, masks, word): (&str, &[u8], u64)| {
        let table = Table([word; 4]);
        let value = Value::Label(Label { secrecy: table, integrity: table });
        of_labels(name, value, &[Clauses::new(masks, masks)], |code| _ = code.lab(2))
    };
    formulas.map(case).to_vec()
}

fn p6_to_p8() -> Vec<Case> {
    let p6 = [Clauses::new(&[3], &[]), Clauses::new(&[1], &[])];
    let p7 = [Clauses::new(&[], &[4]), Clauses::default()];
    let p8 = [Clauses::new(&[1], &[]), Clauses::new(&[2], &[4])];
    let flows = |name: &str, result, labels: &[Clauses], from: u8, to: u8| {
        of_labels(name, Value::Number(result), labels, |code| _ = code.lab(from).lab(to).op(FLOWS))
    };
    let both = Label { secrecy: Table([0x8888_8888_8888_8888; 4]), integrity: Table::TRUE };
    vec![
        flows("P6", 1, &p6, 2, 3),
        flows("P6, back", 0, &p6, 3, 2),
        flows("P7", 1, &p7, 2, 3),
        flows("P7, back", 0, &p7, 3, 2),
        of_labels("P8", Value::Label(both), &p8, |code| _ = code.lab(2).lab(3).op(JOIN)),
    ]
}

/// One record, labelled ⟨player, True⟩, under `clearance`.
fn one_record(code: &Code, clearance: &[u8], places: u16) -> Script {
    Script {
        labels: vec![Clauses::new(&[], &[]), Clauses::new(clearance, &[]), Clauses::new(&[1], &[])],
        records: vec![Input::sealed(2, 7)],
        code: code.bytes(),
        steps: 10,
        places,
    }
}

pub fn p9() -> Case {
    let mut code = Code::new();
    code.input(0).op(OPEN).end();
    // Public clearance, True, does not imply the player's secrecy.
    let expected = Expected::thrown(Fault::above_clearance(1));
    Case { name: "P9".into(), file: one_record(&code, &[], 1).bytes(), expected }
}

pub fn p10() -> Case {
    let mut code = Code::new();
    let body = code.target();
    code.lab(0).block(body, 3, 0).op(POP).push(1).end();
    code.place(body).input(0).op(OPEN).end();
    Case { name: "P10".into(), file: one_record(&code, &[1], 2).bytes(), expected: Expected::number(1) }
}

pub fn p11() -> Case {
    let mut code = Code::new();
    let body = code.target();
    code.lab(0).block(body, 0, 0).op(OPEN);
    code.place(body).end();
    Case { name: "P11".into(), file: one_record(&code, &[1], 2).bytes(), expected: Expected::fault(32) }
}

pub fn p12() -> Case {
    let mut script = one_record(Code::new().push(5).end(), &[], 1);
    script.steps = 1;
    Case { name: "P12".into(), file: script.bytes(), expected: Expected::Ends(Ending::Spent) }
}

fn others() -> Vec<Case> {
    let clauses = |name: &str, expected, masks: &[u8]| {
        let masks = Clauses::new(masks, &[]);
        let write = |code: &mut Code| {
            code.push(5).end();
        };
        tuned(name, expected, write, |script| script.labels[label::DEALER as usize] = masks)
    };
    let pushes = |name: &str, expected, count: u32| {
        case(name, expected, |code| {
            (1..=count).for_each(|number| {
                code.push(number);
            });
            code.end();
        })
    };
    let places = |name: &str, expected, places| {
        let write = |code: &mut Code| {
            code.input(record::SEALED_PUBLIC).op(OPEN).end();
        };
        tuned(name, expected, write, |script| script.places = places)
    };
    vec![
        clauses("clauses 01, 03", Expected::Refused(4), &[1, 3]),
        clauses("clauses 02, 01", Expected::Refused(4), &[2, 1]),
        clauses("mask 63", Expected::number(5), &[63]),
        clauses("mask 64", Expected::number(5), &[64]),
        clauses("mask 255", Expected::number(5), &[255]),
        pushes("32 values", Expected::number(32), 32),
        pushes("33 values", Expected::fault(21), 33),
        places("256 places", Expected::number(1), 256),
        places("257 places", Expected::Refused(2), 257),
    ]
}
