//! Every path through a script's code, one by one, and the quote by its definition: the
//! most that one of them costs. For small code; the paths of long code are too many.

use reference::opcode::*;
use reference::Quote;
use std::collections::BTreeSet;

/// Where the instructions start that a path goes through, in its order.
pub type Path = Vec<usize>;

/// Paths of code that can be quoted.
struct Paths<'a> {
    code: &'a [u8],
    most: usize,
    found: Vec<Path>,
}

/// All paths through `code`, or `None` if there are more than `most`.
pub fn all(code: &[u8], most: usize) -> Option<Vec<Path>> {
    let mut paths = Paths { code, most, found: Vec::new() };
    paths.follow(&mut Vec::new(), 0);
    (paths.found.len() <= most).then_some(paths.found)
}

impl Paths<'_> {
    /// Goes on with `path` at `at`, every way that there is.
    fn follow(&mut self, path: &mut Path, at: usize) {
        if self.found.len() > self.most {
            return;
        }
        path.push(at);
        match self.code[at] {
            END | THROW => self.found.push(path.clone()),
            JUMP => self.follow(path, target(self.code, at)),
            IFZ => {
                self.follow(path, target(self.code, at));
                self.follow(path, next(self.code, at));
            }
            _ => self.follow(path, next(self.code, at)),
        }
        path.pop();
    }
}

/// The path that jumps at every IFZ, or at none.
pub fn one_way(code: &[u8], jumps: bool) -> Path {
    let mut path = vec![0];
    loop {
        let at = path[path.len() - 1];
        match code[at] {
            END | THROW => return path,
            JUMP => path.push(target(code, at)),
            IFZ if jumps => path.push(target(code, at)),
            _ => path.push(next(code, at)),
        }
    }
}

fn next(code: &[u8], at: usize) -> usize {
    at + SHAPES[code[at] as usize].length
}

/// Where the instruction at `at` may go, or has its body.
pub fn target(code: &[u8], at: usize) -> usize {
    usize::from(code[at + 1]) + 256 * usize::from(code[at + 2])
}

/// What the instructions of a path cost.
pub fn cost(code: &[u8], path: &[usize]) -> Quote {
    let count = |opcode: u8| path.iter().filter(|&&at| code[at] == opcode).count() as u32;
    let blocks = path.iter().filter(|&&at| code[at] == BLOCK).map(|&at| &code[at..at + 6]);
    let lent: Vec<(u32, u32)> =
        blocks.map(|block| (u32::from(block[3]) + 256 * u32::from(block[4]), block[5].into())).collect();
    Quote {
        steps: path.len() as u32 + lent.iter().map(|(steps, _)| steps).sum::<u32>(),
        places: count(SEAL) + count(NEW) + count(BLOCK) + lent.iter().map(|(_, places)| places).sum::<u32>(),
    }
}

/// The quote of code whose paths are no more than `most`.
pub fn quote(code: &[u8], most: usize) -> Option<Quote> {
    let costs: Vec<Quote> = all(code, most)?.iter().map(|path| cost(code, path)).collect();
    let largest = |figure: fn(&Quote) -> u32| costs.iter().map(figure).max();
    Some(Quote { steps: largest(|cost| cost.steps)?, places: largest(|cost| cost.places)? })
}

/// Where instructions start, on a path or not, of any code that stood up to check 7.
pub fn starts(code: &[u8]) -> Vec<usize> {
    let mut starts = vec![0];
    loop {
        let after = next(code, starts[starts.len() - 1]);
        if after == code.len() {
            return starts;
        }
        starts.push(after);
    }
}

/// The starts that some path comes to, also where targets are not ahead.
pub fn reached(code: &[u8]) -> BTreeSet<usize> {
    let mut reached = BTreeSet::new();
    let mut waiting = vec![0];
    while let Some(at) = waiting.pop() {
        if !reached.insert(at) {
            continue;
        }
        if matches!(code[at], JUMP | IFZ) {
            waiting.push(target(code, at));
        }
        if !matches!(code[at], END | THROW | JUMP) {
            waiting.push(next(code, at));
        }
    }
    reached
}
