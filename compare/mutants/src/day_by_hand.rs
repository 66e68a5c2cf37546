//! Pairs of days written by hand: in most a public reader is shown the views; the
//! record PLAYER holds 0 in one day and 7 in the other, and it is hidden from
//! that reader.

use crate::day_list::DayMutant;
use cases::days::{add, day, five, of, one_caller};
use cases::label::{CLEARANCE, PLAYER, PUBLIC};
use cases::record::*;
use generator::alike::Pair;
use reference::day_script::{DayScript, JobEntry};
use reference::opcode::*;
use reference::script::Code;

/// A pair, and mutants that it tells from the paper's rules.
pub type Told = (&'static [DayMutant], Pair);

pub fn pairs() -> Vec<Told> {
    [by_admission(), by_starts(), by_handlers(), by_handles(), by_contents()].concat()
}

/// The day with a hidden number of 0 in `record`, too.
fn hiding(record: u8, reader: u8, mutants: &'static [DayMutant], mut day: DayScript) -> Vec<Told> {
    let file = day.bytes();
    day.records[record as usize].number = 0;
    vec![(mutants, Pair { file, other: day.bytes(), reader: reader.into() })]
}

/// A day whose first job opens the hidden number, does `act` if it is not 0, and
/// ends; then `second`.
fn opening(
    mutants: &'static [DayMutant],
    act: fn(&mut Code),
    second: fn(&mut Code),
    tune: fn(&mut DayScript),
) -> Vec<Told> {
    let mut day = day();
    add(&mut day, |code| {
        let zero = code.target();
        code.input(SEALED_PLAYER).op(OPEN).ifz(zero);
        act(code);
        code.place(zero).push(1).end();
    });
    add(&mut day, second);
    tune(&mut day);
    hiding(SEALED_PLAYER, PUBLIC, mutants, day)
}

/// Whether the second job runs.
fn by_admission() -> Vec<Told> {
    use DayMutant::*;
    let busy = |code: &mut Code| {
        (0..8).for_each(|_| _ = code.push(8).op(POP));
    };
    let throw = |code: &mut Code| _ = code.push(8).op(THROW);
    let spin = |code: &mut Code| {
        let again = code.here();
        code.jump(again);
    };
    // The first job uses 5 or 21 of its 30 steps; its caller has 10 left.
    let too_few = |day: &mut DayScript| one_caller(day, 40, &[30, 30]);
    let enough = |day: &mut DayScript| one_caller(day, 2000, &[1000, 1000]);
    [
        opening(&[UsedCharged], busy, five, too_few),
        opening(&[UsedCharged], busy, five, |day| {
            one_caller(day, 40, &[30, 30]);
            day.jobs.insert(1, JobEntry { caller: 7, ..day.jobs[1] });
        }),
        opening(&[FaultFree], throw, five, too_few),
        opening(&[FaultEndsCaller, FaultEndsDay], throw, five, enough),
        opening(&[FaultEndsDay], throw, five, |_| ()),
        opening(&[SpentEndsCaller, SpentEndsDay], spin, five, enough),
        opening(&[SpentEndsDay], spin, five, |_| ()),
    ]
    .concat()
}

/// What the second job starts with.
fn by_starts() -> Vec<Told> {
    use DayMutant::*;
    let make = |code: &mut Code| _ = code.push(2).ops(&[CUR, SEAL, POP]);
    let lower = |code: &mut Code| _ = code.lab(PLAYER).op(LOWER);
    let set = |code: &mut Code| _ = code.push(8).set(0);
    let mut undone = day();
    add(&mut undone, |code| {
        let zero = code.target();
        code.push(9).input(REFERENCE_PUBLIC).op(WRITE).input(SEALED_PLAYER).op(OPEN).ifz(zero);
        code.push(8).op(THROW).place(zero).push(1).end();
    });
    add(&mut undone, five);
    [
        opening(&[PlacesKept], make, five, |_| ()),
        opening(&[ClearanceKept], lower, five, |_| ()),
        opening(&[LocalsKept], set, |code| _ = code.get(0).end(), |_| ()),
        hiding(SEALED_PLAYER, PUBLIC, &[FaultUndoes], undone),
    ]
    .concat()
}

/// What handlers learn.
fn by_handlers() -> Vec<Told> {
    let open_and_throw = |code: &mut Code| {
        let handler = code.target();
        code.try_to(handler).input(SEALED_PLAYER).ops(&[OPEN, THROW]);
        code.place(handler).end();
    };
    hiding(SEALED_PLAYER, PUBLIC, &[DayMutant::TryLabel], of(&[open_and_throw, five]))
}

/// The first job leaves a handle to its second new place in `reference`. The
/// second has a block that opens `hidden` and makes a record in that place if its
/// number is not 0; then it looks at what the handle leads to.
fn left_handle(kind: u8, reference: u8, hidden: u8) -> DayScript {
    let mut day = day();
    add(&mut day, |code| {
        code.push(1).ops(&[CUR, SEAL, POP]).push(1).ops(&[CUR, kind]).input(reference).op(WRITE);
        five(code);
    });
    add(&mut day, |code| {
        let (body, zero) = (code.target(), code.target());
        code.lab(CLEARANCE).block(body, 20, 1).op(POP);
        let handler = code.target();
        code.try_to(handler).input(reference).ops(&[READ, LABOF, END]);
        code.place(handler).ops(&[POP, END]);
        code.place(body).input(hidden).op(OPEN).ifz(zero).push(2).ops(&[CUR, kind]).place(zero);
        code.push(1).end();
    });
    day
}

/// Handles that lead to a place where a record may stand or not.
fn by_handles() -> Vec<Told> {
    use DayMutant::*;
    [
        hiding(
            SEALED_PLAYER,
            PUBLIC,
            &[HandlesLeft, StandingTurned, SealedHandlesLeft],
            left_handle(SEAL, REFERENCE_PUBLIC, SEALED_PLAYER),
        ),
        hiding(
            SEALED_PLAYER,
            PUBLIC,
            &[HandlesLeft, StandingTurned, ReferenceHandlesLeft],
            left_handle(NEW, REFERENCE_PUBLIC, SEALED_PLAYER),
        ),
        // The player's reference is hidden from the first job, which ends public.
        hiding(
            SEALED_DEALER,
            PLAYER,
            &[HandlesLeft, HiddenHandlesLeft],
            left_handle(SEAL, REFERENCE_PLAYER, SEALED_DEALER),
        ),
        hiding(SEALED_DEALER, PLAYER, &[HiddenHandlesLeft], turned_by_label()),
    ]
    .concat()
}

/// Whether the first job's final label is the dealer's or the dealer's and the
/// player's hangs on the dealer's number, and with it what the player is shown.
fn turned_by_label() -> DayScript {
    let mut day = day();
    add(&mut day, |code| {
        let zero = code.target();
        code.push(1).ops(&[CUR, SEAL]).input(REFERENCE_PLAYER).op(WRITE);
        code.input(SEALED_DEALER).op(OPEN).ifz(zero).lab(PLAYER).op(RAISE).place(zero);
        five(code);
    });
    add(&mut day, five);
    day
}

/// The first job leaves a handle in the player's reference if the hidden number is
/// not 0, so that it holds 33 or a number; then `second`.
fn hidden_33(mutants: &'static [DayMutant], clearance: u8, second: fn(&mut Code)) -> Vec<Told> {
    let mut day = day();
    add(&mut day, |code| {
        let (body, zero) = (code.target(), code.target());
        code.lab(PLAYER).block(body, 20, 1).end();
        code.place(body).input(SEALED_PLAYER).op(OPEN).ifz(zero);
        code.push(1).ops(&[CUR, NEW]).input(REFERENCE_PLAYER).op(WRITE).place(zero).push(1).end();
    });
    add(&mut day, second);
    day.jobs[1].clearance = clearance;
    hiding(SEALED_PLAYER, PUBLIC, mutants, day)
}

/// Whether a reference holds 33.
fn by_contents() -> Vec<Told> {
    use DayMutant::*;
    let read = |code: &mut Code| {
        let handler = code.target();
        code.try_to(handler).input(REFERENCE_PLAYER).ops(&[READ, END]);
        code.place(handler).ops(&[POP, END]);
    };
    let write = |code: &mut Code| {
        code.push(4).input(REFERENCE_PLAYER).op(WRITE);
        five(code);
    };
    [
        hidden_33(&[ReadFaultUnraised], CLEARANCE, read),
        hidden_33(&[UnreadFaultTells], PUBLIC, read),
        hidden_33(&[WriteLooks], CLEARANCE, write),
        hidden_33(&[LabofLooks], CLEARANCE, |code| _ = code.input(REFERENCE_PLAYER).ops(&[LABOF, END])),
    ]
    .concat()
}
