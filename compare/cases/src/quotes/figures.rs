//! Figures at the limits of the code, and past 8 and 16 bits.

use super::{quoted, quoted_bytes, QuoteCase};
use reference::limits::MAX_CODE;
use reference::opcode::*;

pub fn cases() -> Vec<QuoteCase> {
    [costliest(), full_code(), around_65_536()].concat()
}

/// So many BLOCKs that lend n steps and k places, with the END behind them as their
/// body; `more` single bytes before it.
fn blocks(name: &str, steps: u32, places: u32, (count, n, k): (usize, u16, u8), more: &[u8]) -> QuoteCase {
    quoted(name, steps, places, |code| {
        let body = code.target();
        for _ in 0..count {
            code.block(body, n, k);
        }
        code.ops(more).place(body).end();
    })
}

fn costliest() -> Vec<QuoteCase> {
    let most = (682, 65_535, 255);
    vec![
        // 682 * 65,536 + 1 and 682 * 256.
        blocks("682 BLOCKs of the most", 44_695_553, 174_592, most, &[]),
        blocks("682 BLOCKs of the most and 3 SEALs", 44_695_556, 174_595, most, &[SEAL; 3]),
        blocks("682 BLOCKs of nothing", 683, 682, (682, 0, 0), &[]),
    ]
}

fn full_code() -> Vec<QuoteCase> {
    let filled = |opcode: u8| {
        let mut code = vec![opcode; MAX_CODE];
        code[MAX_CODE - 1] = END;
        code
    };
    // 1,365 of three bytes each, and an END.
    let aimed = |opcode: u8, target: fn(u16) -> u16| {
        let mut code = Vec::new();
        for at in (0..4095).step_by(3) {
            code.push(opcode);
            code.extend(target(at).to_le_bytes());
        }
        code.push(END);
        code
    };
    vec![
        quoted_bytes("4,096 ENDs", 1, 0, &filled(END)),
        quoted_bytes("4,095 CURs and END", 4096, 0, &filled(CUR)),
        quoted_bytes("4,095 SEALs and END", 4096, 4095, &filled(SEAL)),
        quoted_bytes("4,095 THROWs and END", 1, 0, &filled(THROW)),
        quoted_bytes("1,365 IFZs to the END", 1366, 0, &aimed(IFZ, |_| 4095)),
        quoted_bytes("1,365 IFZs to the next", 1366, 0, &aimed(IFZ, |at| at + 3)),
        quoted_bytes("1,365 JUMPs to the next", 1366, 0, &aimed(JUMP, |at| at + 3)),
        quoted_bytes("1,365 JUMPs to the END", 2, 0, &aimed(JUMP, |_| 4095)),
    ]
}

fn around_65_536() -> Vec<QuoteCase> {
    vec![
        blocks("65,535 steps", 65_535, 1, (1, 65_533, 0), &[]),
        blocks("65,535 steps and one more", 65_536, 1, (1, 65_533, 0), &[CUR]),
        blocks("65,535 steps and two more", 65_537, 1, (1, 65_533, 0), &[CUR, POP]),
        blocks("twice 65,536 steps", 131_073, 2, (2, 65_535, 0), &[]),
        blocks("255 places", 2, 255, (1, 0, 254), &[]),
        blocks("256 places and one more", 3, 257, (1, 0, 255), &[NEW]),
        blocks("65,535 places", 511, 65_535, (255, 0, 255), &[NEW; 255]),
        blocks("65,536 places", 257, 65_536, (256, 0, 255), &[]),
        blocks("65,537 places", 258, 65_537, (256, 0, 255), &[SEAL]),
    ]
}
