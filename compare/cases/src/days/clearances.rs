//! Jobs whose caught faults give a clearance back, and jobs behind them.

use super::{add, add_bytes, day, ends, five, number, of, one_caller, thrown, DayCase, JobEnds};
use crate::bodies::{self, lower_and_throw};
use crate::clearances::{self, check, lower, one, throw};
use crate::kept;
use crate::label::{CLEARANCE, PLAYER, PUBLIC};
use crate::record::*;
use crate::{Case, Expected};
use reference::limits::header;
use reference::opcode::*;
use reference::parts::short;
use reference::script::Code;
use reference::value::{Ending, Fault};

pub fn cases() -> Vec<DayCase> {
    let jobs = vec![
        as_jobs("faults caught in a day's jobs", &FRAMES),
        as_jobs("faults caught in the bodies of a day's jobs", &BODIES),
        own_clearances(),
        behind_skipped(),
        spent(),
    ];
    [jobs, left(), vanished()].concat()
}

/// Plain cases that are jobs here, as a day has the parts that they share.
const FRAMES: [&str; 12] = [
    "OPEN, shut out, is done by the handler",
    "READ, shut out, is done by the handler",
    "READ, shut out, without a fault",
    "22 gives the clearance back",
    "25 gives the clearance back",
    "DONE keeps the lowered clearance",
    "the label stays where the clearance is given back",
    "uncaught once DONE has dropped the frame",
    "two frames with two clearances",
    "the newer of two frames has the lowered clearance",
    "the older frame's clearance once the newer is dropped",
    "a clearance given back in a loop",
];

const BODIES: [&str; 7] = [
    "a body lowers and tries",
    "two frames of a body with two clearances",
    "the newer of two frames of a body has the lowered clearance",
    "DONE in a body keeps the lowered clearance",
    "a body's uncaught fault gives nothing back",
    "a body's fault, opened under the outer frame",
    "a body's frame, then a fault of the outer run",
];

fn as_jobs(name: &str, names: &[&str]) -> DayCase {
    let plain: Vec<Case> = [clearances::cases(), kept::cases(), bodies::cases()].concat();
    let mut day = day();
    let mut expected = Vec::new();
    for name in names {
        let case = plain.iter().find(|case| case.name == *name).expect("a plain case of this name");
        add_bytes(&mut day, &case.file[short(&case.file, header::CODE_AT).into()..]);
        match case.expected {
            Expected::Ends(ending) => expected.push(JobEnds::Ends(ending)),
            Expected::Refused(_) => unreachable!("a job has to run"),
        }
    }
    ends(name, &expected, &day)
}

fn lower_and_end(code: &mut Code) {
    lower(code, PUBLIC);
    five(code);
}

/// The second job's handler opens what the lowered clearance forbade.
fn open_again(code: &mut Code) {
    lower_and_throw(code);
    code.input(SEALED_PLAYER).ops(&[OPEN, END]);
}

fn open_dealer(code: &mut Code) {
    code.input(SEALED_DEALER).ops(&[OPEN, END]);
}

/// Gives 1 if the player's clearance is back.
fn player_again(code: &mut Code) {
    lower_and_throw(code);
    check(code, CLR, PLAYER);
    one(code);
}

/// Every job starts with its own, whatever those before lowered or were given back.
fn own_clearances() -> DayCase {
    let mut day = of(&[lower_and_end, open_again, open_dealer, player_again, open_dealer]);
    day.jobs[2].clearance = PLAYER;
    day.jobs[3].clearance = PLAYER;
    let shut_out = thrown(Fault::above_clearance(1));
    ends("each job has its own clearance back", &[number(5), number(7), shut_out, number(1), number(2)], &day)
}

fn behind_skipped() -> DayCase {
    let mut day = of(&[player_again, open_again, open_again]);
    one_caller(&mut day, 200, &[100, 101, 100]);
    day.jobs[0].clearance = PLAYER;
    ends("a clearance behind a skipped job", &[number(1), JobEnds::Skipped, number(7)], &day)
}

/// TRY, LAB, LOWER and POP are all of the first job's steps.
fn spent() -> DayCase {
    let mut day = of(&[
        |code| {
            let handler = code.target();
            code.try_to(handler);
            lower(code, PLAYER);
            code.op(POP).place(handler).end();
        },
        open_again,
    ]);
    day.jobs[0].steps = 4;
    ends("a job spent as its clearance is given back", &[JobEnds::Ends(Ending::Spent), number(7)], &day)
}

/// What a job leaves behind that ends under a lowered clearance.
fn left() -> Vec<DayCase> {
    let under_frame = |code: &mut Code| {
        let handler = code.target();
        code.try_to(handler);
        lower(code, PUBLIC);
        code.place(handler);
        five(code);
    };
    let throws = |code: &mut Code| {
        lower(code, PUBLIC);
        throw(code);
    };
    let fault = thrown(Fault::thrown(8));
    vec![
        ends(
            "a frame's clearance is not kept",
            &[number(5), fault, number(2)],
            &of(&[under_frame, throws, open_dealer]),
        ),
        ends("a job behind one that faulted lowered", &[fault, number(7)], &of(&[throws, open_again])),
    ]
}

/// The first job leaves a handle in `reference`, which becomes 33. The second does `look`
/// under the player's clearance and ends with the fault's code if its own is back.
fn gone(name: &str, reference: u8, label: u8, look: fn(&mut Code)) -> DayCase {
    let mut day = day();
    add(&mut day, |code| {
        code.push(1).ops(&[CUR, SEAL]).input(reference).op(WRITE);
        five(code);
    });
    add(&mut day, |code| {
        let handler = code.target();
        code.try_to(handler);
        lower(code, PLAYER);
        look(code);
        code.place(handler).op(POP);
        check(code, CLR, CLEARANCE);
        check(code, CUR, label);
        code.end();
    });
    ends(name, &[number(5), number(33)], &day)
}

fn vanished() -> Vec<DayCase> {
    vec![
        gone("33 gives the clearance back", REFERENCE_PUBLIC, PUBLIC, |code| {
            code.input(REFERENCE_PUBLIC).op(READ);
        }),
        gone("33 gives the clearance back and not the label", REFERENCE_PLAYER, PLAYER, |code| {
            code.input(REFERENCE_PLAYER).op(READ);
        }),
        gone("a sealed 33 gives the clearance back", REFERENCE_PUBLIC, PUBLIC, |code| {
            let body = code.target();
            code.lab(PUBLIC).block(body, 2, 0).op(OPEN);
            code.place(body).input(REFERENCE_PUBLIC).ops(&[READ, END]);
        }),
    ]
}
