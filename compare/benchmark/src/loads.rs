//! The files that are timed.

use reference::day_script::{DayScript, JobEntry};
use reference::limits::{view, MAX_CODE, MAX_DAY, MAX_JOBS, MAX_PLACES, MAX_RECORDS, MAX_VIEW};
use reference::opcode::*;
use reference::print::MAX_LINE;
use reference::script::{Clauses, Code, Input, Script, Target};

/// What a figure is for.
#[derive(Clone, Copy, Debug, PartialEq, Eq)]
pub enum Unit {
    /// A step that the run was charged.
    Step,
    /// A whole read.
    Read,
    /// A whole read, and its view printed.
    Line,
    /// A whole quote.
    Quote,
}

/// What a load is read as, or whether it is printed as well, or quoted.
#[derive(Clone, Copy, Debug, PartialEq, Eq)]
pub enum Kind {
    Plain,
    Day,
    /// Read as a plain file, and its view printed as a line.
    Line,
    Quote,
}

/// The view that quotes are set beside: they are to take less time.
pub const VIEW: &str = "view of 256 records";

pub struct Load {
    pub name: &'static str,
    pub kind: Kind,
    pub file: Vec<u8>,
    pub reader: usize,
    pub unit: Unit,
}

impl Load {
    /// A buffer for whatever is read; for a line, with the view behind it.
    pub fn buffer(&self) -> Vec<u8> {
        match self.kind {
            Kind::Plain => vec![0; MAX_VIEW],
            Kind::Day => vec![0; MAX_DAY],
            Kind::Line => vec![0; MAX_LINE + MAX_VIEW],
            Kind::Quote => Vec::new(),
        }
    }

    /// How many units one read is.
    pub fn units(&self) -> u32 {
        match self.unit {
            Unit::Read | Unit::Line | Unit::Quote => 1,
            Unit::Step => self.steps(),
        }
    }

    /// The steps used, in all views.
    fn steps(&self) -> u32 {
        let mut buffer = self.buffer();
        let read = match self.kind {
            Kind::Plain => reference::read,
            Kind::Day => reference::read_day,
            Kind::Line | Kind::Quote => unreachable!("neither a line nor a quote is a load by step"),
        };
        let length = read(&self.file, self.reader, &mut buffer).expect("loads by step are valid");
        let field = |at: usize| u16::from_le_bytes([buffer[at], buffer[at + 1]]);
        let (mut at, mut steps) = (0, 0);
        while at < length {
            steps += u32::from(field(at + view::STEPS));
            at += usize::from(field(at + view::LENGTH));
        }
        steps
    }
}

pub fn loads() -> Vec<Load> {
    let plain =
        |name, script: Script, unit| Load { name, kind: Kind::Plain, file: script.bytes(), reader: 1, unit };
    let by_step = |name, script| plain(name, script, Unit::Step);
    let by_read = |name, script| plain(name, script, Unit::Read);
    let quoted = |name, script: Script| Load {
        name,
        kind: Kind::Quote,
        file: script.bytes(),
        reader: 0,
        unit: Unit::Quote,
    };
    vec![
        by_step("arithmetic loop", endless(arithmetic)),
        by_step("record loop", endless(records)),
        by_step("block loop", blocks()),
        by_step("nested blocks", nested()),
        by_step("throw/catch loop", endless(throw)),
        by_read("refused late", refused_late()),
        by_read(VIEW, full_view()),
        by_read("view of 64 records", records_alone()),
        Load { kind: Kind::Line, ..plain("line of 64 records", records_alone(), Unit::Line) },
        Load { name: "day of 16 jobs", kind: Kind::Day, file: day().bytes(), reader: 1, unit: Unit::Step },
        quoted("quote of 4,095 CURs", filled(|code, _| _ = code.op(CUR))),
        quoted("quote of 1,365 IFZs", filled(|code, last| _ = code.ifz(last))),
        quoted("quote of 682 BLOCKs", filled(|code, last| _ = code.block(last, u16::MAX, u8::MAX))),
    ]
}

/// As much of what is written as there is room for, to be quoted, and an END.
fn filled(write: fn(&mut Code, Target)) -> Script {
    let mut code = Code::new();
    let last = code.target();
    write(&mut code, last);
    let length = code.len();
    while code.len() + length < MAX_CODE {
        write(&mut code, last);
    }
    while code.len() < MAX_CODE - 1 {
        code.op(CUR);
    }
    code.place(last).end();
    script(&code)
}

/// Sixteen jobs in turn, the arithmetic loop and the record loop, each until it is
/// spent. They share the code of the two.
fn day() -> DayScript {
    let loops = [endless(arithmetic), endless(records)];
    let mut day = DayScript {
        labels: loops[0].labels.clone(),
        records: loops[0].records.clone(),
        steps: u32::MAX,
        ..DayScript::default()
    };
    let spans = loops.map(|script| day.add_code(&script.code));
    for caller in 0..MAX_JOBS as u8 {
        let (code_at, code_length) = spans[usize::from(caller) % spans.len()];
        day.jobs.push(JobEntry {
            caller,
            label: 0,
            clearance: 1,
            zero: 0,
            steps: u16::MAX,
            places: MAX_PLACES as u16,
            code_at,
            code_length,
        });
    }
    day
}

fn script(code: &Code) -> Script {
    Script {
        labels: vec![Clauses::default(), Clauses::new(&[1, 2], &[]), Clauses::new(&[1], &[])],
        records: vec![Input::sealed(2, 7), Input::reference(2, 0)],
        code: code.bytes(),
        steps: u16::MAX,
        places: MAX_PLACES as u16,
    }
}

/// `write` again and again, until the run is spent.
fn endless(write: fn(&mut Code)) -> Script {
    let mut code = Code::new();
    let again = code.here();
    write(&mut code);
    code.jump(again);
    script(&code)
}

fn arithmetic(code: &mut Code) {
    let small = code.target();
    code.get(0).push(3).op(ADD).set(0).get(0).push(1000).op(LESS).ifz(small);
    code.get(0).push(1).op(SUB).set(0).place(small);
}

/// Reads and writes a reference and opens a sealed record, all at one label.
fn records(code: &mut Code) {
    code.lab(2).op(RAISE).input(0).op(OPEN).input(1).ops(&[READ, ADD]).input(1).op(WRITE);
}

fn throw(code: &mut Code) {
    let handler = code.target();
    code.try_to(handler).push(8).op(THROW).place(handler).ops(&[POP, POP]);
}

/// As many blocks as there are places. Each body uses what it is lent.
fn blocks() -> Script {
    let mut code = Code::new();
    let (body, again) = (code.target(), code.here());
    code.lab(2).block(body, 6, 0).op(POP).jump(again);
    code.place(body).get(0).push(1).op(ADD).set(0).get(0).end();
    script(&code)
}

/// Eight blocks inside one another, as often as there are places.
fn nested() -> Script {
    const DEPTH: u16 = 8;
    let mut code = Code::new();
    let again = code.here();
    for level in 0..DEPTH {
        let body = code.target();
        let inner = DEPTH - level - 1;
        // LAB, BLOCK and END of every body further in, and PUSH, END in the last.
        code.lab(2).block(body, 3 * inner + 2, inner as u8);
        if level == 0 {
            code.op(POP).jump(again);
        } else {
            code.end();
        }
        code.place(body);
    }
    code.push(1).end();
    script(&code)
}

/// Every part as long as it may be; only the last instruction is wrong.
fn refused_late() -> Script {
    let mut code = Code::new();
    while code.len() < MAX_CODE - 1 {
        code.op(CUR);
    }
    code.op(POP);
    let seventy: Vec<u8> = (0u8..=255).filter(|mask| mask.count_ones() == 4).collect();
    let mut script = script(&code);
    script.labels.resize(32, Clauses::new(&seventy, &seventy));
    script.records.resize(MAX_RECORDS, Input::sealed(2, 7));
    script
}

/// Makes a record in every place, and the reader sees them all.
fn full_view() -> Script {
    let mut code = Code::new();
    let again = code.here();
    code.push(1).lab(2).ops(&[SEAL, POP]).jump(again);
    let mut script = script(&code);
    script.records.resize(MAX_RECORDS, Input::sealed(2, 7));
    script
}

/// As many input records as there may be, and the reader sees them all. Nothing is run
/// but an END, which finds no result to pop, and there are no places beside theirs: what
/// takes time is to load the records and to write the view.
pub fn records_alone() -> Script {
    let mut script = script(Code::new().end());
    script.records.resize(MAX_RECORDS, Input::sealed(2, 7));
    script.places = MAX_RECORDS as u16;
    script
}

#[cfg(test)]
mod tests {
    use super::*;
    use crate::lines;
    use reference::limits::shown;
    use reference::print;

    fn load(name: &str) -> Load {
        loads().into_iter().find(|load| load.name == name).expect("a load of this name")
    }

    fn read(load: &Load) -> (Result<usize, u8>, [u8; MAX_VIEW]) {
        let mut buffer = [0; MAX_VIEW];
        (reference::read(&load.file, load.reader, &mut buffer), buffer)
    }

    #[test]
    fn loops_use_all_steps() {
        for name in ["arithmetic loop", "record loop", "throw/catch loop"] {
            assert_eq!(load(name).units(), 65_535, "{name}");
        }
        assert_eq!(load("day of 16 jobs").units(), 16 * 65_535);
    }

    /// Their bodies end with their last step, so that every charged step is
    /// obeyed. The last LAB and BLOCK find no place.
    #[test]
    fn blocks_use_all_places_and_hold_results() {
        for (name, steps, outcomes) in
            [("block loop", 254 * 10 + 2, 254), ("nested blocks", 31 * 27 + 2, 248)]
        {
            assert_eq!(load(name).units(), steps, "{name}");
            let (answer, view) = read(&load(name));
            // Shown are the two input records, too.
            assert_eq!(answer, Ok(view::RECORDS + shown::LENGTH * (2 + outcomes)), "{name}");
            let records = view[view::RECORDS..].chunks(shown::LENGTH).take(2 + outcomes);
            const FAULT: u8 = 5;
            assert!(records.into_iter().all(|record| record[shown::VALUE] != FAULT), "{name}");
        }
    }

    #[test]
    fn reads_end_as_they_are_named() {
        assert_eq!(read(&load("refused late")).0, Err(7));
        assert_eq!(read(&load(VIEW)).0, Ok(MAX_VIEW));
    }

    #[test]
    fn records_alone_are_all_shown() {
        let (answer, view) = read(&load("view of 64 records"));
        assert_eq!(answer, Ok(view::RECORDS + shown::LENGTH * 64));
        let numbers: Vec<u16> = view[..view::RESULT]
            .chunks_exact(2)
            .map(|bytes| u16::from_le_bytes([bytes[0], bytes[1]]))
            .collect();
        // A fault after one step, in the END; no place was taken but those of the records.
        assert_eq!(numbers, [2, 1, 64, 64, 206, 206 + 132 * 64]);
        // Its code is 20, too few operands, and its number is 0.
        assert_eq!(view[view::RESULT..view::LABEL], [[5u8, 0, 20].as_slice(), &[0; 63]].concat());
        let places = view[view::RECORDS..].chunks(shown::LENGTH).take(64).map(|record| record[shown::PLACE]);
        assert!(places.eq(0..64u8));
    }

    #[test]
    fn the_line_is_the_view_s_and_as_the_program_prints_it() {
        let load = load("line of 64 records");
        assert_eq!(load.file, self::load("view of 64 records").file);
        let mut buffer = vec![0xEE; load.buffer().len()];
        let length = lines::of_reference(&load.file, load.reader, &mut buffer).expect("a valid file");
        let printed = print::lines(&load.file);
        let expected = printed.split_inclusive('\n').nth(load.reader).expect("a line for each label");
        assert_eq!(&buffer[..length], expected.as_bytes());
        assert!(buffer[length..MAX_LINE].iter().all(|&byte| byte == 0xEE));
    }

    /// Their answers, lines and views, and the bytes that both leave alone.
    #[cfg(feature = "proved")]
    #[test]
    fn both_implementations_leave_the_same_bytes() {
        let load = load("line of 64 records");
        let [reference, proved] = [lines::of_reference, lines::of_proved].map(|print| {
            let mut buffer = vec![0xEE; load.buffer().len()];
            (print(&load.file, load.reader, &mut buffer), buffer)
        });
        assert!(reference == proved, "{:?} and {:?}", reference.0, proved.0);
    }

    #[test]
    fn quotes_are_of_as_much_code_as_there_may_be() {
        // Three CURs fill up what BLOCKs leave free.
        for (name, steps, places) in [
            ("quote of 4,095 CURs", 4096, 0),
            ("quote of 1,365 IFZs", 1366, 0),
            ("quote of 682 BLOCKs", 682 * 65_536 + 4, 682 * 256),
        ] {
            let load = load(name);
            assert_eq!(reference::quote(&load.file), Ok(reference::Quote { steps, places }), "{name}");
            let code = reference::file::File::parse(&load.file).expect("a valid file").parts.code.len();
            assert_eq!(code, MAX_CODE, "{name}");
        }
    }
}
