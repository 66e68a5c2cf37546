//! Pairs written by hand, for mutants that chance may be slow to find. In most
//! a public reader is shown the views; the record PLAYER holds 0 in one file
//! and 7 in the other, and it is hidden from that reader.

use crate::list::Mutant;
use cases::label::{CLEARANCE, DEALER, PLAYER, PUBLIC, VOUCHED};
use cases::parties::{one_word_tests, DESK, HIRER};
use cases::record::{REFERENCE_PUBLIC, SEALED_DEALER, SEALED_PLAYER, SEALED_PUBLIC};
use generator::alike::Pair;
use reference::opcode::*;
use reference::script::{Clauses, Code, Input, Script};

/// A pair, and mutants that it tells from the paper's rules.
pub type Told = (&'static [Mutant], Pair);

pub fn pairs() -> Vec<Told> {
    [by_outcome(), by_cost(), by_traces(), by_handlers(), by_clearances(), by_views(), by_words()].concat()
}

fn pair(mutants: &'static [Mutant], write: impl FnOnce(&mut Code)) -> Vec<Told> {
    hiding(SEALED_PLAYER, PUBLIC, mutants, write)
}

/// A pair that differs in the number of `record`, which is hidden from `reader`.
fn hiding(record: u8, reader: u8, mutants: &'static [Mutant], write: impl FnOnce(&mut Code)) -> Vec<Told> {
    let mut code = Code::new();
    write(&mut code);
    hiding_in(cases::script(&code), record, reader, mutants)
}

fn hiding_in(mut script: Script, record: u8, reader: u8, mutants: &'static [Mutant]) -> Vec<Told> {
    let file = script.bytes();
    script.records[record as usize].number = 0;
    vec![(mutants, Pair { file, other: script.bytes(), reader: reader.into() })]
}

/// A block with `bound`; then `after`, with the outcome's handle on the stack.
/// The body opens the hidden number and does `act` if it is not 0.
fn block(code: &mut Code, bound: u8, after: impl FnOnce(&mut Code), act: impl FnOnce(&mut Code)) {
    let (body, zero) = (code.target(), code.target());
    code.lab(bound).block(body, 40, 3);
    after(code);
    code.place(body).input(SEALED_PLAYER).op(OPEN).ifz(zero);
    act(code);
    code.place(zero).push(1).end();
}

fn end(code: &mut Code) {
    code.end();
}

fn throw(code: &mut Code) {
    code.push(8).op(THROW);
}

fn spin(code: &mut Code) {
    let again = code.here();
    code.jump(again);
}

fn raise(code: &mut Code) {
    code.lab(CLEARANCE).op(RAISE);
}

fn make(code: &mut Code) {
    code.push(2).ops(&[CUR, SEAL, POP]);
}

/// What the outcome holds, and under which label.
fn by_outcome() -> Vec<Told> {
    use Mutant::*;
    [
        pair(&[FaultOverBound, FaultCrosses, BoundFaultTells], |code| block(code, PUBLIC, end, throw)),
        pair(&[SpentOverBound, SpentCrosses, SpentEndsOuter, OuterStepsTaken], |code| {
            block(code, PUBLIC, end, spin)
        }),
        pair(&[ResultOverBound, OpenUnraised], |code| {
            block(code, PUBLIC, end, |code| _ = code.push(8).end());
        }),
        // Two ways to learn of the outcome's label: by asking for it, and by
        // whether the outcome can be opened under a lowered clearance.
        pair(&[OutcomeByFinalLabel, OutcomeByJoin], |code| {
            block(code, PLAYER, |code| _ = code.ops(&[LABOF, END]), raise);
        }),
        pair(&[OutcomeByFinalLabel, OutcomeByJoin], |code| {
            let after = |code: &mut Code| {
                let handler = code.target();
                code.lab(PLAYER).op(LOWER).try_to(handler).ops(&[OPEN, POP]);
                code.place(handler).push(1).end();
            };
            block(code, PLAYER, after, raise);
        }),
        pair(&[UnopenedFaultTells], |code| {
            block(code, PLAYER, |code| _ = code.lab(PUBLIC).ops(&[LOWER, OPEN, END]), throw);
        }),
        past_in_one_half_or_both(),
    ]
    .concat()
}

/// The bench vouches for the run, the bound and the hidden record. The body passes the
/// bound by secrecy, and by integrity too if the number is not 0.
fn past_in_one_half_or_both() -> Vec<Told> {
    let mut code = Code::new();
    block(&mut code, VOUCHED, end, |code| _ = code.lab(DEALER).op(RAISE));
    let mut script = cases::script(&code);
    script.labels[usize::from(PUBLIC)] = script.labels[usize::from(VOUCHED)].clone();
    script.labels[usize::from(PLAYER)] = Clauses::new(&[1], &[4]);
    hiding_in(script, SEALED_PLAYER, VOUCHED, &[Mutant::BoundTells])
}

/// What the block is charged.
fn by_cost() -> Vec<Told> {
    use Mutant::*;
    [
        pair(&[StepsByUse], |code| block(code, PUBLIC, end, |code| _ = code.push(8).op(POP))),
        pair(&[PlacesByUse, PlaceCheckByUse, HiddenCounted], |code| block(code, PUBLIC, end, make)),
        pair(&[OuterPlacesTaken], |code| {
            block(code, PUBLIC, end, |code| (0..8).for_each(|_| make(code)));
        }),
    ]
    .concat()
}

/// What a body leaves in the outer run or the store.
fn by_traces() -> Vec<Told> {
    use Mutant::*;
    [
        pair(&[ClearanceKept], |code| {
            block(code, PUBLIC, end, |code| _ = code.lab(PLAYER).op(LOWER));
        }),
        pair(&[LocalsShared], |code| {
            block(code, PUBLIC, |code| _ = code.op(POP).get(0).end(), |code| _ = code.push(8).set(0));
        }),
        pair(&[WriteUnchecked], |code| {
            block(code, PUBLIC, end, |code| _ = code.push(8).input(REFERENCE_PUBLIC).op(WRITE));
        }),
        pair(&[SealUnchecked], |code| {
            block(code, PUBLIC, end, |code| _ = code.push(8).lab(PUBLIC).op(SEAL));
        }),
        pair(&[NewUnchecked], |code| {
            block(code, PUBLIC, end, |code| _ = code.push(8).lab(PUBLIC).op(NEW));
        }),
        pair(&[BlockUnchecked], |code| {
            block(code, PUBLIC, end, |code| {
                let body = code.target();
                code.lab(PUBLIC).block(body, 1, 0);
                code.place(body).op(POP);
            });
        }),
        // The body leaves a public record before it looks.
        pair(&[RolledBack], |code| {
            let (body, zero) = (code.target(), code.target());
            code.lab(PLAYER).block(body, 20, 3).end();
            code.place(body).push(2).ops(&[CUR, SEAL, POP]).input(SEALED_PLAYER).op(OPEN).ifz(zero);
            raise(code);
            code.place(zero).push(1).end();
        }),
    ]
    .concat()
}

/// What handlers learn.
fn by_handlers() -> Vec<Told> {
    use Mutant::*;
    [
        // TRY h; INPUT 0; OPEN; THROW; h: END.
        pair(&[TryLabel], |code| {
            let handler = code.target();
            code.try_to(handler).input(SEALED_PLAYER).ops(&[OPEN, THROW]);
            code.place(handler).end();
        }),
        pair(&[OpenFaultUnraised], |code| {
            let after = |code: &mut Code| {
                let handler = code.target();
                code.try_to(handler).op(OPEN);
                code.place(handler).end();
            };
            block(code, PLAYER, after, throw);
        }),
    ]
    .concat()
}

fn lower(code: &mut Code) {
    code.lab(PLAYER).op(LOWER);
}

/// A frame, a lowered clearance, and a block; then `after` and the frame's handler, which
/// looks at the clearance. The body does `act` if the hidden number is not 0.
fn framed(mutants: &'static [Mutant], after: fn(&mut Code), act: fn(&mut Code)) -> Vec<Told> {
    pair(mutants, |code| {
        let handler = code.target();
        code.try_to(handler);
        lower(code);
        let after = |code: &mut Code| {
            after(code);
            code.place(handler).ops(&[CLR, END]);
        };
        block(code, PUBLIC, after, act);
    })
}

/// Whether a clearance is given back, and which.
fn by_clearances() -> Vec<Told> {
    use Mutant::*;
    [
        framed(&[UncaughtBody, FaultCrosses], |code| _ = code.ops(&[CLR, END]), throw),
        framed(&[LastTryOfAll], throw, |code| {
            let handler = code.target();
            code.try_to(handler).op(DONE).place(handler);
        }),
        // In a body the clearance is given back or stays lowered, as the number is.
        pair(&[ClearanceKept], |code| {
            let (body, handler) = (code.target(), code.target());
            code.lab(PUBLIC).block(body, 20, 0).ops(&[POP, CLR, END]);
            code.place(body).input(SEALED_PLAYER).op(OPEN).try_to(handler);
            lower(code);
            code.ifz(handler).push(8).op(THROW).place(handler).push(1).end();
        }),
        // The same in the outermost run, which is hidden by then.
        pair(&[ClearanceShown, TryLabel], |code| {
            let handler = code.target();
            code.try_to(handler).input(SEALED_PLAYER).op(OPEN);
            lower(code);
            code.ifz(handler).push(8).op(THROW).place(handler).push(1).end();
        }),
    ]
    .concat()
}

/// What the view tells of a run whose final label is hidden.
fn by_views() -> Vec<Told> {
    use Mutant::*;
    let acts = |mutants: &'static [Mutant], act: fn(&mut Code)| {
        pair(mutants, |code| {
            let zero = code.target();
            code.input(SEALED_PLAYER).op(OPEN).ifz(zero);
            act(code);
            code.place(zero).push(1).end();
        })
    };
    [
        acts(&[EndingShown, ResultShown], throw),
        acts(&[StepsShown, NextPlaceShown, HiddenCounted], make),
        acts(&[LabelShown, OldHidden], raise),
        acts(&[ClearanceShown, OldHidden], |code| _ = code.lab(PLAYER).op(LOWER)),
        acts(&[OpenReplaces], |code| {
            code.input(SEALED_PUBLIC).ops(&[OPEN, END]);
        }),
        // Hidden for want of integrity: no one vouches for what is public.
        hiding(SEALED_PUBLIC, VOUCHED, &[IntegrityBackwards], |code| _ = code.push(1).end()),
        acts(&[RaiseReplaces], |code| _ = code.lab(PUBLIC).ops(&[RAISE, CUR, END])),
        acts(&[JoinOrsSecrecy], |code| _ = code.input(SEALED_DEALER).ops(&[OPEN, END])),
    ]
    .concat()
}

/// What one word of a table alone hides: a record of a label that would flow to the reader
/// but for that word, by secrecy and then by integrity.
fn by_words() -> Vec<Told> {
    use Mutant::*;
    const TOLD: [&[Mutant]; 8] = [
        &[Word0Unlooked, OneWordEnough, HirerInAll, DeskInAll],
        &[Word0Unlooked, OneWordEnough, HirerInAll, DeskInAll],
        &[Word1Unlooked, OneWordEnough, HirerInNone, BothInNone],
        &[Word1Unlooked, OneWordEnough, HirerInNone, BothInNone],
        &[Word2Unlooked, OneWordEnough, DeskInNone, BothInNone],
        &[Word2Unlooked, OneWordEnough, DeskInNone, BothInNone],
        &[Word3Unlooked, OneWordEnough, HirerInNone, DeskInNone, BothInNone],
        &[Word3Unlooked, OneWordEnough, HirerInNone, DeskInNone, BothInNone],
    ];
    let mut pairs: Vec<Told> = TOLD
        .into_iter()
        .zip(one_word_tests())
        .flat_map(|(mutants, test)| of_two(mutants, test.from, test.to, |code| _ = code.push(1).end()))
        .collect();
    // The hirer's number is opened, and the desk reads.
    let (hirer, desk) = (Clauses::new(&[HIRER], &[]), Clauses::new(&[DESK], &[]));
    pairs.extend(of_two(&[LowestJoined], hirer, desk, |code| _ = code.input(0).ops(&[OPEN, END])));
    pairs
}

/// A pair that differs in a number of the label `secret`, and another label that reads.
fn of_two(
    mutants: &'static [Mutant],
    secret: Clauses,
    reader: Clauses,
    write: impl FnOnce(&mut Code),
) -> Vec<Told> {
    let mut code = Code::new();
    write(&mut code);
    let script = Script {
        labels: vec![Clauses::default(), Clauses::new(&[0], &[]), secret, reader],
        records: vec![Input::sealed(2, 7)],
        code: code.bytes(),
        steps: 10,
        places: 1,
    };
    hiding_in(script, 0, 3, mutants)
}
