//! Refusal 7: each job's span by itself, whatever else the code holds.

use super::{add_bytes, day, ends, fault, five, number, of, refused, DayCase, JobEnds};
use reference::day_script::DayScript;
use reference::opcode::*;
use reference::value::{Ending, Fault};

pub fn cases() -> Vec<DayCase> {
    [refused_spans(), taken_spans(), skipped()].concat()
}

/// A job that is in order, then one with this code.
fn second(code: &[u8]) -> DayScript {
    let mut day = of(&[five]);
    add_bytes(&mut day, code);
    day
}

/// One job, of the `length` bytes from `at` on.
fn span(code: &[u8], at: u16, length: u16) -> DayScript {
    let mut day = day();
    add_bytes(&mut day, code);
    (day.jobs[0].code_at, day.jobs[0].code_length) = (at, length);
    day
}

fn refused_spans() -> Vec<DayCase> {
    let wrong = |name: &str, code: &[u8]| refused(format!("a second job's {name}"), 7, &second(code));
    let cut = |name: &str, code: &[u8], at, length| refused(name, 7, &span(code, at, length));
    let mut cases = vec![
        wrong("unknown opcode", &[0x1E, END]),
        wrong("unknown opcode, never reached", &[JUMP, 4, 0, 0x1E, END]),
        wrong("label index L", &[LAB, 6, END]),
        wrong("INPUT index C", &[INPUT, 7, END]),
        wrong("local 16 got", &[GET, 16, END]),
        wrong("local 16 set", &[SET, 16, END]),
        wrong("JUMP into its operand", &[JUMP, 1, 0]),
        wrong("JUMP to its end", &[JUMP, 3, 0]),
        wrong("BLOCK into its operand", &[BLOCK, 3, 0, 0, 0, 0, END]),
        wrong("handler past its end", &[TRY, 4, 0, END]),
        wrong("IFZ far past its end", &[IFZ, 255, 255, END]),
        // The job starts at 6 in the code; counted from there, 9 is no start.
        wrong("target counted from the code's start", &[JUMP, 9, 0, END]),
        wrong("last instruction POP", &[CUR, POP]),
        wrong("cut operand", &[PUSH, 5, 0, 0]),
        wrong("cut JUMP", &[JUMP, 0]),
        cut("a target past the span, inside the code", &[JUMP, 4, 0, END, CUR, END], 0, 4),
        cut("a target before the span, modulo 2^16", &[CUR, END, JUMP, 254, 255], 2, 3),
        cut("a span that cuts an instruction", &[CUR, END, PUSH, 5, 0, 0, 0, END], 0, 5),
        cut("a span that cuts a JUMP", &[JUMP, 0, 0], 0, 2),
        cut("a span that ends before END", &[CUR, END], 0, 1),
        cut("a span that ends before a JUMP", &[CUR, POP, JUMP, 0, 0], 0, 2),
        cut("a span that starts in an operand", &[PUSH, 0x1E, 0, 0, 0, END], 1, 5),
    ];
    let mut first = of(&[five, five]);
    first.code[0] = 0xFF;
    cases.push(refused("a first job's unknown opcode", 7, &first));
    cases
}

fn taken_spans() -> Vec<DayCase> {
    let five_in = |name: &str, code: &[u8], at, length| ends(name, &[number(5)], &span(code, at, length));
    let pushed = [PUSH, 5, 0, 0, 0, END];
    let unknown = [0xFF, 0x1E, PUSH, 5, 0, 0, 0, END, 0xFF, PUSH];
    // From 1 on it is POP and four ENDs.
    let mut overlapping = span(&pushed, 0, 6);
    overlapping.jobs.push(overlapping.jobs[0]);
    (overlapping.jobs[1].code_at, overlapping.jobs[1].code_length) = (1, 5);
    let mut same = of(&[five]);
    same.jobs.push(same.jobs[0]);
    let mut jumps = span(&[JUMP, 3, 0, PUSH, 5, 0, 0, 0, END], 0, 9);
    jumps.jobs.push(jumps.jobs[0]);
    (jumps.jobs[1].code_at, jumps.jobs[1].code_length) = (3, 6);
    // The second job is one byte of the first's PUSH.
    let mut nested = span(&[CUR, POP, PUSH, END, END, END, END, END], 0, 8);
    nested.jobs.push(nested.jobs[0]);
    (nested.jobs[1].code_at, nested.jobs[1].code_length) = (3, 1);
    vec![
        five_in("bytes in no span", &unknown, 2, 6),
        five_in("a last instruction by span", &[PUSH, 5, 0, 0, 0, END, POP], 0, 6),
        five_in("targets from the job's start", &[0xFF, JUMP, 3, 0, PUSH, 5, 0, 0, 0, END], 1, 9),
        five_in("IFZ from the job's start", &[END, GET, 0, IFZ, 6, 0, END, PUSH, 5, 0, 0, 0, END], 1, 12),
        ends("spans that overlap", &[number(5), fault(20)], &overlapping),
        ends("one span for two jobs", &[number(5), number(5)], &same),
        ends("a job that starts at another's target", &[number(5), number(5)], &jumps),
        ends("a span of one byte in another's operand", &[number(0), fault(20)], &nested),
        ends("THROW as the last instruction", &[number(5), thrown(6)], &second(&[PUSH, 6, 0, 0, 0, THROW])),
    ]
}

fn thrown(number: u32) -> JobEnds {
    JobEnds::Ends(Ending::Fault(Fault::thrown(number)))
}

/// Check 7 is on skipped jobs too.
fn skipped() -> Vec<DayCase> {
    let mut day = second(&[POP]);
    day.steps = 0;
    vec![refused("the code of a job that would be skipped", 7, &day)]
}
