//! Blocks: what they cost, what their outcome holds, what stays behind.

use crate::{case, label, record, Case, Expected, Write, FREE_PLACES};
use reference::opcode::*;
use reference::script::{Code, Target};
use reference::value::{Ending, Fault, Value};

pub fn cases() -> Vec<Case> {
    [outcomes(), isolation(), sealed_faults(), costs(), places(), nested(), left_behind()].concat()
}

/// A block whose outcome the outer run opens at once.
fn opened(name: &str, expected: Expected, bound: u8, steps: u16, write: impl FnOnce(&mut Code)) -> Case {
    case(name, expected, |code| {
        let body = code.target();
        code.lab(bound).block(body, steps, 3).ops(&[OPEN, END]);
        code.place(body);
        write(code);
    })
}

fn outcomes() -> Vec<Case> {
    let sealed_player = |code: &mut Code| _ = code.input(record::SEALED_PLAYER).op(OPEN);
    let thrown = |number| Expected::thrown(Fault::thrown(number));
    vec![
        opened("the result", Expected::number(5), label::PUBLIC, 2, |code| _ = code.push(5).end()),
        opened("the uncaught fault", thrown(5), label::PUBLIC, 2, |code| _ = code.push(5).op(THROW)),
        opened("spent", Expected::fault(32), label::PUBLIC, 1, |code| _ = code.push(5).end()),
        opened("the result within the bound", Expected::number(7), label::PLAYER, 3, |code| {
            sealed_player(code);
            code.end();
        }),
        opened("31 over the result", Expected::fault(31), label::DEALER, 3, |code| {
            sealed_player(code);
            code.end();
        }),
        opened("31 over the fault", Expected::fault(31), label::DEALER, 3, |code| {
            sealed_player(code);
            code.op(THROW);
        }),
        opened("31 over spent", Expected::fault(31), label::DEALER, 2, |code| {
            sealed_player(code);
            code.end();
        }),
    ]
}

/// What passes between the outer run and the body, and what does not.
fn isolation() -> Vec<Case> {
    vec![
        case("the outcome bears the bound", Expected::number(1), |code| {
            let body = code.target();
            // The bound is above the final label; only the bound flows to it back.
            code.lab(label::PLAYER).lab(label::PLAYER).block(body, 2, 0).ops(&[LABOF, FLOWS, END]);
            code.place(body).push(5).end();
        }),
        case("the outcome is sealed", Expected::Ends(Ending::Result(Value::Sealed(7))), |code| {
            let body = code.target();
            code.lab(label::PUBLIC).block(body, 2, 0).end();
            code.place(body).push(5).end();
        }),
        case("locals are copied in", Expected::number(6), |code| {
            let body = code.target();
            code.push(6).set(3).lab(label::PUBLIC).block(body, 2, 0).ops(&[OPEN, END]);
            code.place(body).get(3).end();
        }),
        case("changes to the copy are lost", Expected::number(6), |code| {
            let body = code.target();
            code.push(6).set(3).lab(label::PUBLIC).block(body, 4, 0).op(POP).get(3).end();
            code.place(body).push(9).set(3).get(3).end();
        }),
        case("the outer stack is not the body's", Expected::fault(20), |code| {
            let body = code.target();
            code.push(6).lab(label::PUBLIC).block(body, 4, 0).ops(&[OPEN, END]);
            code.place(body).end();
        }),
        case("label and clearance come back", Expected::number(1), |code| {
            let (body, bad) = (code.target(), code.target());
            code.lab(label::CLEARANCE)
                .block(body, 9, 0)
                .ops(&[POP, CUR])
                .lab(label::PUBLIC)
                .op(FLOWS)
                .ifz(bad);
            code.lab(label::CLEARANCE).ops(&[CLR, FLOWS, END]);
            code.place(bad).push(0).end();
            code.place(body).lab(label::PLAYER).op(LOWER).lab(label::PLAYER).ops(&[RAISE, CUR, END]);
        }),
    ]
}

/// OPEN throws each fault there is out of an outcome.
fn sealed_faults() -> Vec<Case> {
    let bodies: [(Fault, Write); 8] = [
        (Fault::TOO_FEW_OPERANDS, |code| _ = code.op(POP)),
        (Fault::STACK_FULL, |code| {
            let again = code.here();
            code.push(1).jump(again);
        }),
        (Fault::WRONG_KIND, |code| _ = code.lab(label::PUBLIC).op(THROW)),
        (Fault::above_target(2), |code| _ = code.push(1).lab(label::VOUCHED).op(SEAL)),
        (Fault::above_clearance(1), |code| _ = code.lab(label::ABOVE).op(RAISE)),
        (Fault::bad_lower(1), |code| _ = code.lab(label::ABOVE).op(LOWER)),
        (Fault::NO_PLACE, |code| {
            let again = code.here();
            code.push(1).lab(label::PUBLIC).ops(&[NEW, POP]).jump(again);
        }),
        (Fault::FRAMES, |code| _ = code.op(DONE)),
    ];
    let mut cases = Vec::new();
    for (fault, write) in bodies {
        let name = format!("OPEN throws {}", fault.code);
        cases.push(opened(&name, Expected::thrown(fault), label::PUBLIC, 90, |code| {
            write(code);
            code.push(1).end();
        }));
    }
    cases.push(opened("OPEN throws 27", Expected::fault(27), label::PUBLIC, 9, |code| {
        let body = code.target();
        code.lab(label::PUBLIC).block(body, 8, 0);
        code.place(body).end();
    }));
    cases
}

fn costs() -> Vec<Case> {
    let exactly = |name: &str, expected, steps: u16, places: u8| {
        case(name, expected, |code| {
            let body = code.target();
            code.lab(label::PUBLIC).block(body, steps, places).op(END);
            code.place(body).push(5).end();
        })
    };
    let sealed = Expected::Ends(Ending::Result(Value::Sealed(7)));
    vec![
        // LAB, BLOCK and END take three of 1000 steps.
        exactly("all steps but END's", sealed, 997, 0),
        exactly("all steps left", Expected::Ends(Ending::Spent), 998, 0),
        exactly("all places but the outcome's", sealed, 9, FREE_PLACES - 1),
        case("unused steps are paid for", Expected::Ends(Ending::Spent), |code| {
            let body = code.target();
            code.lab(label::PUBLIC).block(body, 996, 0).op(POP).push(1).end();
            code.place(body).push(5).end();
        }),
        case("unused places are paid for", Expected::fault(26), |code| {
            let body = code.target();
            code.lab(label::PUBLIC).block(body, 9, FREE_PLACES - 1).op(POP).push(1).ops(&[CUR, SEAL, END]);
            code.place(body).push(5).end();
        }),
    ]
}

fn places() -> Vec<Case> {
    vec![
        case("the body's places are its own", Expected::fault(26), |code| {
            let body = code.target();
            code.lab(label::PUBLIC).block(body, 20, 1).ops(&[OPEN, END]);
            code.place(body);
            (0..2).for_each(|_| _ = code.push(5).ops(&[CUR, SEAL]));
            code.end();
        }),
        case(
            "the body's records follow the outcome",
            Expected::Ends(Ending::Result(Value::Sealed(8))),
            |code| {
                let body = code.target();
                code.lab(label::PUBLIC).block(body, 20, 4).ops(&[OPEN, END]);
                code.place(body).push(5).ops(&[CUR, SEAL, END]);
            },
        ),
        case("a handle passed through a block and two records", Expected::number(7), |code| {
            let body = code.target();
            code.lab(label::PUBLIC).block(body, 20, 2).ops(&[OPEN, OPEN, READ, OPEN, END]);
            code.place(body).input(record::SEALED_PLAYER).ops(&[CUR, NEW, CUR, SEAL, END]);
        }),
        case("places go on behind the body's", Expected::Ends(Ending::Result(Value::Sealed(12))), |code| {
            let body = code.target();
            code.lab(label::PUBLIC).block(body, 20, 4).op(POP).push(5).ops(&[CUR, SEAL, END]);
            code.place(body).push(5).ops(&[CUR, SEAL, END]);
        }),
    ]
}

/// `depth` blocks inside one another, each opening the outcome of the next.
fn nest(code: &mut Code, depth: u16, innermost: impl FnOnce(&mut Code)) {
    let bodies: Vec<Target> = (0..depth).map(|_| code.target()).collect();
    for (level, &body) in (0..).zip(&bodies) {
        let rest = depth - level;
        code.lab(label::PUBLIC).block(body, 4 * rest + 1, rest as u8).ops(&[OPEN, END]);
        code.place(body);
    }
    innermost(code);
}

fn nested() -> Vec<Case> {
    let mut cases: Vec<Case> = (1..=8)
        .map(|depth| {
            case(format!("{depth} nested blocks"), Expected::number(5), |code| {
                nest(code, depth, |code| _ = code.push(5).end());
            })
        })
        .collect();
    cases.extend((9..=11).map(|depth| {
        case(format!("{depth} nested blocks"), Expected::fault(28), |code| {
            nest(code, depth, |code| _ = code.push(5).end());
        })
    }));
    cases.extend((1..=8).map(|depth| {
        case(format!("a fault caught inside {depth} blocks"), Expected::number(30), |code| {
            nest(code, depth, |code| {
                let handler = code.target();
                code.push(8).try_to(handler).op(THROW);
                code.place(handler).ops(&[POP, END]);
            });
        })
    }));
    cases.extend((1..=8).map(|depth| {
        case(format!("spent inside {depth} blocks"), Expected::fault(32), |code| {
            nest(code, depth, |code| {
                let again = code.here();
                code.jump(again);
            });
        })
    }));
    cases.push(case("eight blocks one behind the other", Expected::number(8), |code| {
        let body = code.target();
        code.push(0).set(0);
        for _ in 0..8 {
            code.lab(label::PUBLIC).block(body, 5, 0).op(OPEN).set(0);
        }
        code.get(0).end();
        code.place(body).get(0).push(1).ops(&[ADD, END]);
    }));
    cases
}

/// What a body wrote and made stays, however it ended.
fn left_behind() -> Vec<Case> {
    let endings: [(&str, Write); 4] = [
        ("result", |code| _ = code.push(1).end()),
        ("fault", |code| _ = code.op(POP)),
        ("spent", |code| {
            let again = code.here();
            code.jump(again);
        }),
        ("31", |code| _ = code.input(record::SEALED_PLAYER).ops(&[OPEN, END])),
    ];
    let mut cases = Vec::new();
    for (name, ending) in endings {
        cases.push(case(format!("a write stays after {name}"), Expected::number(50), |code| {
            let body = code.target();
            code.lab(label::PUBLIC).block(body, 20, 2).op(POP);
            code.input(record::REFERENCE_PUBLIC).ops(&[READ, END]);
            code.place(body).push(50).input(record::REFERENCE_PUBLIC).op(WRITE);
            ending(code);
            code.end();
        }));
        cases.push(case(format!("a record stays after {name}"), Expected::number(51), |code| {
            let body = code.target();
            code.lab(label::PUBLIC).block(body, 20, 2).op(POP);
            code.input(record::REFERENCE_PUBLIC).ops(&[READ, OPEN, END]);
            code.place(body).push(51).ops(&[CUR, SEAL]).input(record::REFERENCE_PUBLIC).op(WRITE);
            ending(code);
            code.end();
        }));
    }
    cases
}
