//! Check 11: a target that is not ahead of its instruction's own start, or a TRY, on a
//! path or in dead code.

use super::{quoted_bytes, refused, QuoteCase};
use reference::opcode::*;

pub fn cases() -> Vec<QuoteCase> {
    [jumps(), branches(), blocks(), tries(), taken(), two_bytes()].concat()
}

fn jumps() -> Vec<QuoteCase> {
    vec![
        refused("JUMP to itself, alone", 11, &[JUMP, 0, 0]),
        refused("JUMP to itself", 11, &[CUR, JUMP, 1, 0]),
        refused("JUMP back by one", 11, &[CUR, JUMP, 0, 0]),
        refused("JUMP back to the start", 11, &[CUR, POP, CUR, JUMP, 0, 0]),
        refused("JUMP back into dead code", 11, &[JUMP, 4, 0, END, JUMP, 3, 0]),
        refused("JUMP back, behind END", 11, &[CUR, END, JUMP, 0, 0]),
        refused("JUMP to itself, behind THROW", 11, &[CUR, THROW, JUMP, 2, 0]),
        refused("JUMP back, jumped over", 11, &[JUMP, 6, 0, JUMP, 0, 0, END]),
        refused("JUMP back, in a body", 11, &[CUR, BLOCK, 9, 0, 1, 0, 0, END, CUR, CUR, JUMP, 8, 0]),
        refused("JUMP ahead, and one back", 11, &[JUMP, 3, 0, CUR, JUMP, 3, 0]),
    ]
}

fn branches() -> Vec<QuoteCase> {
    vec![
        refused("IFZ to itself, first", 11, &[IFZ, 0, 0, END]),
        refused("IFZ to itself", 11, &[GET, 0, IFZ, 2, 0, END]),
        refused("IFZ back", 11, &[GET, 0, IFZ, 0, 0, END]),
        refused("IFZ back, behind END", 11, &[CUR, END, IFZ, 1, 0, END]),
        refused("IFZ to itself, behind THROW", 11, &[CUR, THROW, IFZ, 2, 0, END]),
        refused("IFZ back, jumped over", 11, &[JUMP, 6, 0, IFZ, 0, 0, END]),
        refused("IFZ ahead, and one back", 11, &[GET, 0, IFZ, 5, 0, GET, 0, IFZ, 0, 0, END]),
    ]
}

fn blocks() -> Vec<QuoteCase> {
    vec![
        refused("BLOCK to itself, first", 11, &[BLOCK, 0, 0, 1, 0, 0, END]),
        refused("BLOCK to itself", 11, &[CUR, BLOCK, 1, 0, 1, 0, 0, END]),
        refused("BLOCK with its body before it", 11, &[CUR, BLOCK, 0, 0, 1, 0, 0, END]),
        refused("BLOCK of no steps with its body before it", 11, &[CUR, BLOCK, 0, 0, 0, 0, 0, END]),
        refused("BLOCK with its body in code jumped over", 11, &[JUMP, 4, 0, END, BLOCK, 3, 0, 1, 0, 0, END]),
        refused("BLOCK with its body before it, behind END", 11, &[CUR, END, BLOCK, 0, 0, 1, 0, 0, END]),
        refused("BLOCK to itself, behind THROW", 11, &[CUR, THROW, BLOCK, 2, 0, 1, 0, 0, END]),
        refused("BLOCK ahead, and one back", 11, &[BLOCK, 12, 0, 1, 0, 0, BLOCK, 0, 0, 1, 0, 0, END]),
    ]
}

fn tries() -> Vec<QuoteCase> {
    vec![
        refused("TRY with its handler ahead", 11, &[TRY, 4, 0, CUR, END]),
        refused("TRY whose handler is the next instruction", 11, &[TRY, 3, 0, END]),
        refused("TRY whose handler is itself", 11, &[TRY, 0, 0, END]),
        refused("TRY whose handler is before it", 11, &[CUR, TRY, 0, 0, END]),
        refused("TRY and DONE", 11, &[TRY, 5, 0, CUR, DONE, END]),
        refused("TRY behind some instructions", 11, &[CUR, POP, CUR, TRY, 6, 0, END]),
        refused("TRY behind END", 11, &[CUR, END, TRY, 5, 0, END]),
        refused("TRY behind THROW", 11, &[CUR, THROW, TRY, 5, 0, END]),
        refused("TRY behind END, its handler before it", 11, &[CUR, END, TRY, 0, 0, END]),
        refused("TRY jumped over", 11, &[JUMP, 6, 0, TRY, 6, 0, END]),
        refused("TRY in a body", 11, &[CUR, BLOCK, 8, 0, 9, 0, 0, END, TRY, 11, 0, END]),
        refused("TRY at one way of an IFZ", 11, &[GET, 0, IFZ, 8, 0, TRY, 8, 0, END]),
        refused("TRY as the last but one", 11, &[END, END, END, TRY, 6, 0, THROW]),
    ]
}

/// What is not refused: targets that are the next instruction, DONE without TRY, and
/// operands that look like a TRY or a JUMP back.
fn taken() -> Vec<QuoteCase> {
    vec![
        quoted_bytes("JUMP to the next instruction", 2, 0, &[JUMP, 3, 0, END]),
        quoted_bytes("IFZ to the next instruction", 2, 0, &[IFZ, 3, 0, END]),
        quoted_bytes("BLOCK with the next instruction as its body", 3, 1, &[BLOCK, 6, 0, 1, 0, 0, END]),
        quoted_bytes("DONE without TRY", 2, 0, &[DONE, END]),
        quoted_bytes("PUSH of TRYs", 2, 0, &[PUSH, TRY, TRY, TRY, TRY, END]),
        quoted_bytes("PUSH of a JUMP back", 2, 0, &[PUSH, JUMP, 0, 0, 0, END]),
        quoted_bytes("BLOCK that lends 1A of each", 6_684, 27, &[BLOCK, 6, 0, TRY, TRY, TRY, END]),
        quoted_bytes("JUMP to a start whose low byte is a TRY", 2, 0, &to_26()),
        quoted_bytes("GET of local 10", 2, 0, &[GET, JUMP, END]),
    ]
}

/// JUMP 26, then ENDs.
fn to_26() -> Vec<u8> {
    let mut code = vec![END; 27];
    code[..3].copy_from_slice(&[JUMP, TRY, 0]);
    code
}

/// Targets and starts beyond 255: both bytes count.
fn two_bytes() -> Vec<QuoteCase> {
    // CURs up to `at`, a JUMP there, and ENDs.
    let jump = |at: usize, target: u16| {
        let mut code = vec![CUR; at];
        code.push(JUMP);
        code.extend(target.to_le_bytes());
        code.resize(600, END);
        code
    };
    vec![
        quoted_bytes("JUMP from 250 to 256", 252, 0, &jump(250, 256)),
        quoted_bytes("JUMP from 255 to 513", 257, 0, &jump(255, 513)),
        quoted_bytes("JUMP from 3 to 256", 5, 0, &jump(3, 256)),
        refused("JUMP from 256 to 255", 11, &jump(256, 255)),
        refused("JUMP from 511 to 256", 11, &jump(511, 256)),
        refused("JUMP from 300 to 300", 11, &jump(300, 300)),
    ]
}
