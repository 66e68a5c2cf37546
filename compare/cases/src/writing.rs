//! Files and a day whose numbers have bytes that all differ and are above 127, where a
//! number can have such: so that it shows if a byte is cut from the wrong place, or
//! without its highest bit. They are not in [`crate::all`] and [`crate::days::all`], of
//! which the stored corpora are made.

use crate::days::{DayCase, Expected as DayExpected, JobEnds};
use crate::{Case, Expected};
use reference::day_script::{DayScript, JobEntry};
use reference::label::Label;
use reference::opcode::{END, SEAL, THROW};
use reference::script::{Clauses, Code, Input, Script};
use reference::table::Table;
use reference::value::{Ending, Fault, Value};

pub fn cases() -> Vec<Case> {
    vec![spent(), result(), sealed(), thrown(), six_records()]
}

/// Both formulas want the principals 0, 1 and 2, one of whom may send another in his stead:
/// by secrecy 2 may send 3, 1 may send 4 and 0 may send 5; by integrity 1 may send 3, 0 may
/// send 4 and 2 may send 5. Byte j of a word is for the sets whose masks are 8j to 8j + 7 in
/// that word, so that j says who of 3, 4 and 5 is there, and no two bytes of a word are the
/// same. A principal fewer may do where 6 or 7 is there, which says what word it is, so that
/// no two words are the same either.
pub const LABEL: Label = Label {
    secrecy: Table([
        0xE8E0_C8C0_A8A0_8880,
        0xF8F0_C8C0_A8A0_8880,
        0xECE0_CCC0_A8A0_8880,
        0xFCF0_CCC0_A8A0_8880,
    ]),
    integrity: Table([
        0xE8C8_A888_E0C0_A080,
        0xEAC8_AA88_E0C0_A080,
        0xF8C8_A888_F0C0_A080,
        0xFAC8_AA88_F0C0_A080,
    ]),
};

fn clauses() -> Clauses {
    Clauses::new(&[6, 12, 18, 33, 67, 133], &[5, 10, 17, 36, 70, 131])
}

const STEPS: u16 = 0xC5A6;
const RECORD: Input = Input { kind: 0, label: 0, number: 0xF3C5_A69D };

/// The label is the starting one, the clearance and that of `records`.
fn script(records: Vec<Input>, write: impl FnOnce(&mut Code)) -> Script {
    let mut code = Code::new();
    write(&mut code);
    let places = records.len() as u16;
    Script { labels: vec![clauses(), clauses()], records, code: code.bytes(), steps: STEPS, places }
}

fn case(name: &str, ending: Ending, script: Script) -> Case {
    Case { name: name.into(), file: script.bytes(), expected: Expected::Ends(ending) }
}

fn spin(code: &mut Code) {
    let again = code.here();
    code.jump(again);
}

pub fn spent() -> Case {
    case("bytes of steps, labels and a number", Ending::Spent, script(vec![RECORD], spin))
}

fn result() -> Case {
    let ending = Ending::Result(Value::Label(LABEL));
    case("bytes of a label as result", ending, script(vec![RECORD], |code| _ = code.lab(0).end()))
}

/// A record whose value is the label.
fn sealed() -> Case {
    let mut script = script(vec![RECORD], |code| _ = code.lab(0).lab(0).ops(&[SEAL, END]));
    script.places = 2;
    case("bytes of a label in a record", Ending::Result(Value::Sealed(1)), script)
}

fn thrown() -> Case {
    const NUMBER: u32 = 0xE9D7_B38C;
    let throw = |code: &mut Code| _ = code.push(NUMBER).op(THROW);
    case("bytes of a number thrown", Ending::Fault(Fault::thrown(NUMBER)), script(vec![RECORD], throw))
}

/// The view is longer than 255 bytes.
fn six_records() -> Case {
    let ending = Ending::Fault(Fault::TOO_FEW_OPERANDS);
    case("bytes of a length", ending, script(vec![RECORD; 6], |code| _ = code.end()))
}

/// The file that is spent, as a job, and once more, for which its caller has a step too few.
pub fn day() -> DayCase {
    let Script { labels, records, code, steps, places } = script(vec![RECORD], spin);
    let mut day = DayScript { labels, records, steps: 2 * u32::from(steps) - 1, ..DayScript::default() };
    let (code_at, code_length) = day.add_code(&code);
    day.jobs =
        vec![JobEntry { caller: 3, label: 0, clearance: 1, zero: 0, steps, places, code_at, code_length }; 2];
    DayCase {
        name: "bytes of a job's view".into(),
        file: day.bytes(),
        expected: DayExpected::Jobs(vec![JobEnds::Ends(Ending::Spent), JobEnds::Skipped]),
    }
}
