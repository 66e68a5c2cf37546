//! Which instructions are on a path, and which paths cost most.

use super::{quoted, QuoteCase};
use reference::opcode::*;
use reference::script::Code;

pub fn cases() -> Vec<QuoteCase> {
    [stops(), ways(), jumps(), figures_apart(), bodies(), dead_code(), many()].concat()
}

fn stops() -> Vec<QuoteCase> {
    vec![
        quoted("END alone", 1, 0, |code| _ = code.end()),
        quoted("THROW alone", 1, 0, |code| _ = code.op(THROW)),
        quoted("END stops", 1, 0, |code| _ = code.ops(&[END, SEAL, NEW, END])),
        quoted("THROW stops", 1, 0, |code| _ = code.ops(&[THROW, SEAL, NEW, END])),
        quoted("THROW stops, and would not fault", 2, 0, |code| {
            code.push(8).ops(&[THROW, SEAL, END]);
        }),
        quoted("DONE goes on", 4, 2, |code| _ = code.ops(&[DONE, SEAL, NEW, END])),
        quoted("a path that ends with THROW", 3, 1, |code| _ = code.ops(&[CUR, SEAL, THROW])),
        quoted("a path that ends with END", 3, 1, |code| _ = code.ops(&[CUR, NEW, END])),
    ]
}

/// IFZ with `at_next` behind it and `at_target` at its target; each ends.
fn fork(code: &mut Code, at_next: &[u8], at_target: &[u8]) {
    let target = code.target();
    code.get(0).ifz(target).ops(at_next).end().place(target).ops(at_target).end();
}

fn ways() -> Vec<QuoteCase> {
    vec![
        quoted("IFZ with more at the next instruction", 6, 2, |code| {
            fork(code, &[SEAL, NEW, CUR], &[NEW]);
        }),
        quoted("IFZ with more at the target", 6, 2, |code| fork(code, &[NEW], &[SEAL, NEW, CUR])),
        quoted("IFZ with as much both ways", 4, 1, |code| fork(code, &[SEAL], &[NEW])),
        quoted("IFZ always taken by a run", 5, 2, |code| {
            // Local 0 is the number 0, but a quote does not know.
            fork(code, &[SEAL, SEAL], &[]);
        }),
        quoted("IFZ never taken by a run", 6, 3, |code| {
            let target = code.target();
            code.push(1).ifz(target).end().place(target).ops(&[NEW, NEW, SEAL]).end();
        }),
        quoted("two IFZs with one target", 7, 2, |code| {
            let target = code.target();
            code.get(0).ifz(target).op(NEW).get(1).ifz(target).op(SEAL).place(target).end();
        }),
        quoted("IFZ inside both ways of an IFZ", 8, 3, |code| {
            let (zero, deep, deeper) = (code.target(), code.target(), code.target());
            code.get(0).ifz(zero).get(1).ifz(deep).end().place(deep).ops(&[SEAL, NEW, SEAL]).end();
            code.place(zero).get(1).ifz(deeper).op(NEW).end().place(deeper).end();
        }),
        quoted("a way to what another path ends before", 3, 1, |code| {
            let target = code.target();
            code.ifz(target).end().place(target).op(NEW).op(THROW);
        }),
    ]
}

fn jumps() -> Vec<QuoteCase> {
    vec![
        quoted("JUMP over what costs", 2, 0, |code| {
            let after = code.target();
            code.jump(after).ops(&[SEAL, NEW, SEAL]).place(after).end();
        }),
        quoted("JUMP from JUMP to JUMP", 4, 0, |code| {
            let targets = [code.target(), code.target(), code.target()];
            for target in targets {
                code.jump(target).op(SEAL).place(target);
            }
            code.end();
        }),
        quoted("a way that JUMPs over the other", 5, 1, |code| {
            let (zero, after) = (code.target(), code.target());
            code.get(0).ifz(zero).jump(after).place(zero).op(SEAL).place(after).op(POP).end();
        }),
    ]
}

/// The largest steps and the largest places, where no path has both.
fn figures_apart() -> Vec<QuoteCase> {
    let (busy, making) = ([CUR, POP, CUR, POP], [SEAL, NEW]);
    vec![
        quoted("most steps at the target, most places at the next", 7, 2, |code| fork(code, &making, &busy)),
        quoted("most places at the target, most steps at the next", 7, 2, |code| fork(code, &busy, &making)),
        quoted("a BLOCK of steps or a BLOCK of places", 503, 201, |code| {
            let (other, body) = (code.target(), code.target());
            code.get(0).ifz(other).block(body, 499, 0).end();
            code.place(other).block(body, 0, 200).place(body).end();
        }),
        quoted("two forks, each with most steps one way and most places the other", 17, 4, |code| {
            // GET, IFZ, and 3 steps and 2 places, or 6 steps.
            for _ in 0..2 {
                let (zero, after) = (code.target(), code.target());
                code.get(0).ifz(zero).ops(&making).jump(after);
                code.place(zero).ops(&busy).ops(&[CUR, POP]).place(after);
            }
            code.end();
        }),
        quoted("steps by a way of few places, and a common SEAL", 8, 3, |code| {
            let (zero, after) = (code.target(), code.target());
            code.get(0).ifz(zero).ops(&[NEW, NEW]).jump(after).place(zero).ops(&busy).place(after);
            code.ops(&[SEAL, END]);
        }),
    ]
}

fn bodies() -> Vec<QuoteCase> {
    let costly = |code: &mut Code| _ = code.ops(&[SEAL, NEW, SEAL, NEW, SEAL, NEW]).end();
    vec![
        quoted("a body that costs more than its block", 3, 1, |code| {
            let body = code.target();
            code.block(body, 1, 0).end().place(body);
            costly(code);
        }),
        quoted("a body that costs less than its block", 103, 51, |code| {
            let body = code.target();
            code.block(body, 101, 50).end().place(body).end();
        }),
        quoted("a body that the path comes to as well", 9, 8, |code| {
            let body = code.target();
            code.block(body, 1, 1).place(body);
            costly(code);
        }),
        quoted("a body with a body", 4, 1, |code| {
            let (body, inner) = (code.target(), code.target());
            code.block(body, 2, 0).end();
            code.place(body).block(inner, 500, 100).end().place(inner);
            costly(code);
        }),
        quoted("a body that throws", 3, 1, |code| {
            let body = code.target();
            code.block(body, 1, 0).end().place(body).push(1).op(THROW);
        }),
        quoted("two blocks with one body", 5, 2, |code| {
            let body = code.target();
            code.block(body, 1, 0).block(body, 1, 0).end().place(body);
            costly(code);
        }),
        quoted("a body that an IFZ goes to as well", 8, 7, |code| {
            let body = code.target();
            code.ifz(body).block(body, 1, 6).end().place(body);
            costly(code);
        }),
    ]
}

fn dead_code() -> Vec<QuoteCase> {
    vec![
        quoted("dead SEALs behind END", 2, 0, |code| _ = code.ops(&[CUR, END, SEAL, SEAL, SEAL, END])),
        quoted("a dead IFZ", 2, 0, |code| {
            let target = code.target();
            code.ops(&[CUR, END]).ifz(target).ops(&[NEW, NEW]).place(target).ops(&[NEW, END]);
        }),
        quoted("a dead BLOCK", 2, 0, |code| {
            let body = code.target();
            code.ops(&[CUR, THROW]).block(body, 65_535, 255).place(body).end();
        }),
        quoted("a dead JUMP to what a path comes to", 4, 1, |code| {
            let (zero, after) = (code.target(), code.target());
            code.ifz(zero).end().op(SEAL).jump(after).place(zero).op(NEW).place(after).op(CUR).end();
        }),
        quoted("dead code that leads back to a path", 4, 0, |code| {
            let after = code.target();
            code.op(CUR).jump(after).ops(&[SEAL, SEAL]).place(after).ops(&[POP, END]);
        }),
        quoted("nothing but a dead end", 1, 0, |code| _ = code.ops(&[END; 10])),
    ]
}

/// More paths than can be counted one by one.
fn many() -> Vec<QuoteCase> {
    vec![
        quoted("100 forks, one behind the other", 100 * 4 + 1, 200, |code| {
            for _ in 0..100 {
                let (zero, after) = (code.target(), code.target());
                // IFZ, two NEWs and a JUMP, or IFZ and one SEAL.
                code.ifz(zero).ops(&[NEW, NEW]).jump(after).place(zero).op(SEAL).place(after);
            }
            code.end();
        }),
        quoted("100 forks with most steps here and most places there", 100 * 5 + 1, 200, |code| {
            for _ in 0..100 {
                let (zero, after) = (code.target(), code.target());
                code.ifz(zero).ops(&[NEW, NEW]).jump(after).place(zero).ops(&[CUR; 4]).place(after);
            }
            code.end();
        }),
    ]
}
