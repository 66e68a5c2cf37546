//! What each instruction gives when nothing goes wrong.

use crate::{case, label, record, Case, Expected};
use reference::label::Label;
use reference::opcode::*;
use reference::script::Code;
use reference::table::Table;
use reference::value::{Ending, Value};

pub fn cases() -> Vec<Case> {
    [numbers(), jumps(), labels(), records()].concat()
}

fn gives(name: &str, value: Value, write: impl FnOnce(&mut Code)) -> Case {
    case(name, Expected::Ends(Ending::Result(value)), |code| {
        write(code);
        code.end();
    })
}

fn numbers() -> Vec<Case> {
    let computed = |opcode: u8, deeper: u32, top: u32, result: u32| {
        let name = format!("{} of {deeper} and {top}", SHAPES[opcode as usize].name);
        gives(&name, Value::Number(result), |code| _ = code.push(deeper).push(top).op(opcode))
    };
    vec![
        computed(ADD, 2, 3, 5),
        computed(ADD, u32::MAX, 2, 1),
        computed(SUB, 5, 3, 2),
        computed(SUB, 3, 5, u32::MAX - 1),
        computed(LESS, 3, 5, 1),
        computed(LESS, 5, 3, 0),
        computed(LESS, 5, 5, 0),
        computed(LESS, 1, u32::MAX, 1),
        computed(LESS, u32::MAX, 1, 0),
        computed(SAME, 5, 5, 1),
        computed(SAME, 5, 261, 0),
        computed(SAME, 0x0100_0000, 0, 0),
        gives("PUSH of all four bytes", Value::Number(0x1234_5678), |code| _ = code.push(0x1234_5678)),
        gives("locals start as 0", Value::Number(0), |code| _ = code.get(15)),
        gives("a local set and got", Value::Number(9), |code| _ = code.push(9).set(15).push(8).get(15)),
        gives("POP", Value::Number(1), |code| _ = code.push(1).push(2).op(POP)),
        gives("END takes the top", Value::Number(2), |code| _ = code.push(1).push(2)),
    ]
}

fn jumps() -> Vec<Case> {
    let branch = |name: &str, number: u32, result: u32| {
        case(name, Expected::number(result), |code| {
            let zero = code.target();
            code.push(number).ifz(zero).push(1).end();
            code.place(zero).push(2).end();
        })
    };
    vec![
        branch("IFZ of 0 jumps", 0, 2),
        branch("IFZ of 1 goes on", 1, 1),
        branch("IFZ of 65,536 goes on", 65_536, 1),
        case("JUMP back and forth", Expected::number(3), |code| {
            let (back, forth) = (code.target(), code.target());
            code.jump(forth);
            code.place(back).push(3).end();
            code.place(forth).jump(back);
        }),
    ]
}

/// The label that no one vouches for whose table of secrecy has this word four times, as it
/// has where the last two principals have no say.
fn table(secrecy: u64) -> Value {
    Value::Label(Label { secrecy: Table([secrecy; 4]), integrity: Table::TRUE })
}

fn labels() -> Vec<Case> {
    let flows = |name: &str, from: u8, to: u8, result: u32| {
        gives(name, Value::Number(result), |code| _ = code.lab(from).lab(to).op(FLOWS))
    };
    let vouched = Value::Label(Label { secrecy: Table::TRUE, integrity: Table([0xF0F0_F0F0_F0F0_F0F0; 4]) });
    let player = table(0xAAAA_AAAA_AAAA_AAAA);
    vec![
        flows("public flows to secret", label::PUBLIC, label::PLAYER, 1),
        flows("secret does not flow to public", label::PLAYER, label::PUBLIC, 0),
        flows("vouched flows to public", label::VOUCHED, label::PUBLIC, 1),
        flows("public does not flow to vouched", label::PUBLIC, label::VOUCHED, 0),
        flows("neither of two flows to the other", label::PLAYER, label::DEALER, 0),
        flows("secret does not flow to vouched", label::PLAYER, label::VOUCHED, 0),
        flows("a label flows to itself", label::PLAYER, label::PLAYER, 1),
        gives("JOIN", table(0x8888_8888_8888_8888), |code| {
            code.lab(label::PLAYER).lab(label::DEALER).op(JOIN);
        }),
        gives("MEET", table(0xEEEE_EEEE_EEEE_EEEE), |code| {
            code.lab(label::PLAYER).lab(label::DEALER).op(MEET);
        }),
        gives("JOIN of integrity", player, |code| _ = code.lab(label::PLAYER).lab(label::VOUCHED).op(JOIN)),
        gives("MEET of integrity", vouched, |code| _ = code.lab(label::PLAYER).lab(label::VOUCHED).op(MEET)),
        gives("CUR", table(u64::MAX), |code| _ = code.op(CUR)),
        gives("CLR", table(0x8080_8080_8080_8080), |code| _ = code.op(CLR)),
        gives("CUR after RAISE", player, |code| _ = code.lab(label::PLAYER).ops(&[RAISE, CUR])),
        gives("CLR after LOWER", player, |code| _ = code.lab(label::PLAYER).ops(&[LOWER, CLR])),
        gives("RAISE twice joins", table(0x8888_8888_8888_8888), |code| {
            code.lab(label::PLAYER).op(RAISE).lab(label::DEALER).ops(&[RAISE, CUR]);
        }),
        gives("RAISE to the clearance", table(0x8080_8080_8080_8080), |code| {
            _ = code.ops(&[CLR, RAISE, CUR])
        }),
        gives("LOWER to the label", table(u64::MAX), |code| _ = code.ops(&[CUR, LOWER, CLR])),
        gives("LABOF", player, |code| _ = code.input(record::REFERENCE_PLAYER).op(LABOF)),
    ]
}

fn records() -> Vec<Case> {
    let number = Value::Number;
    vec![
        gives("INPUT of a sealed record", Value::Sealed(0), |code| _ = code.input(record::SEALED_PLAYER)),
        gives("INPUT of a reference", Value::Reference(2), |code| _ = code.input(record::REFERENCE_PLAYER)),
        gives("OPEN", number(7), |code| _ = code.input(record::SEALED_PLAYER).op(OPEN)),
        gives("READ", number(5), |code| _ = code.input(record::REFERENCE_PLAYER).op(READ)),
        gives("SEAL", Value::Sealed(7), |code| _ = code.push(4).ops(&[CUR, SEAL])),
        gives("NEW", Value::Reference(7), |code| _ = code.push(4).ops(&[CUR, NEW])),
        gives("SEAL and OPEN", number(4), |code| _ = code.push(4).ops(&[CUR, SEAL, OPEN])),
        gives("NEW and READ", number(4), |code| _ = code.push(4).ops(&[CUR, NEW, READ])),
        gives("the second record made", Value::Sealed(8), |code| {
            code.push(4).ops(&[CUR, NEW]).push(4).ops(&[CUR, SEAL]);
        }),
        gives("WRITE and READ", number(4), |code| {
            code.push(4).input(record::REFERENCE_PUBLIC).op(WRITE).input(record::REFERENCE_PUBLIC).op(READ);
        }),
        gives("WRITE upwards does not raise", number(1), |code| {
            code.push(4).input(record::REFERENCE_PLAYER).ops(&[WRITE, CUR]).lab(label::PUBLIC).op(FLOWS);
        }),
        gives("a label in a record", table(u64::MAX), |code| _ = code.ops(&[CUR, CUR, NEW, READ])),
        gives("a handle in a record", Value::Reference(3), |code| {
            code.input(record::REFERENCE_PUBLIC).ops(&[CUR, SEAL, OPEN]);
        }),
        gives("a reference that holds itself", Value::Reference(3), |code| {
            code.input(record::REFERENCE_PUBLIC).input(record::REFERENCE_PUBLIC).op(WRITE);
            code.input(record::REFERENCE_PUBLIC).ops(&[READ, READ]);
        }),
    ]
}
