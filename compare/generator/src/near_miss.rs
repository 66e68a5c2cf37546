//! Files that would be quoted but for one instruction, which check 11 is for.

use crate::forward;
use crate::paths::starts;
use crate::random::Random;
use reference::opcode::*;
use reference::script::Script;

pub fn script(random: &mut Random) -> Script {
    let mut script = forward::script(random);
    let aimed = aimed(&script.code);
    if aimed.is_empty() || random.chance(40) {
        append(random, &mut script.code);
    } else {
        let at = random.pick(&aimed);
        turn(random, &mut script.code, at);
    }
    script
}

/// Where instructions with a target start.
fn aimed(code: &[u8]) -> Vec<usize> {
    starts(code).into_iter().filter(|&at| matches!(code[at], JUMP | IFZ | BLOCK)).collect()
}

/// Aims the instruction at `at` at itself or at an earlier one, or makes it a TRY, which
/// is as long as a JUMP or an IFZ.
fn turn(random: &mut Random, code: &mut [u8], at: usize) {
    if code[at] != BLOCK && random.chance(35) {
        code[at] = TRY;
        return;
    }
    let target = earlier_or_itself(random, code, at);
    code[at + 1..at + 3].copy_from_slice(&target);
}

fn earlier_or_itself(random: &mut Random, code: &[u8], at: usize) -> [u8; 2] {
    let earlier: Vec<usize> = starts(code).into_iter().filter(|&start| start < at).collect();
    let target = if earlier.is_empty() || random.chance(40) { at } else { random.pick(&earlier) };
    (target as u16).to_le_bytes()
}

/// Puts such an instruction behind the last one, where no path comes.
fn append(random: &mut Random, code: &mut Vec<u8>) {
    let at = code.len();
    let back = earlier_or_itself(random, code, at);
    let ahead = (at as u16 + 3).to_le_bytes();
    match random.below(5) {
        0 => code.extend([JUMP, back[0], back[1]]),
        1 => code.extend([IFZ, back[0], back[1], END]),
        2 => code.extend([BLOCK, back[0], back[1], 1, 0, 0, END]),
        3 => code.extend([TRY, back[0], back[1], END]),
        _ => code.extend([TRY, ahead[0], ahead[1], THROW]),
    }
}
