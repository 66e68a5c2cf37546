//! Looks for a pair, or a file, that tells a mutant from the paper's rules.

use crate::list::{Harm, Mutant};
use crate::wrong::Wrong;
use generator::alike::Pair;
use reference::file::File;
use reference::limits::MAX_VIEW;
use reference::read_by;
use reference::rules::{Paper, Rules};

/// Whether the pair tells `mutant` from the paper's rules: by a leak if that is
/// its harm, else by any other view.
pub fn tells(mutant: Mutant, pair: &Pair) -> bool {
    match mutant.harm() {
        Harm::Leak => leaks(mutant, pair),
        Harm::Wrong => differs(&Wrong::new(mutant), &pair.file),
    }
}

/// Whether two alike files are told apart.
pub fn leaks(mutant: Mutant, pair: &Pair) -> bool {
    let wrong = Wrong::new(mutant);
    view(&wrong, &pair.file, pair.reader) != view(&wrong, &pair.other, pair.reader)
}

/// Whether a file gives one of its labels another view than by the paper's rules.
pub fn differs<R: Rules>(wrong: &R, file: &[u8]) -> bool {
    let labels = File::parse(file).map_or(0, |file| file.parts.labels().len());
    (0..labels).any(|reader| view(wrong, file, reader) != view(&Paper, file, reader))
}

/// How many of the generator's pairs it takes to find `mutant` out, if `most`
/// are enough.
pub fn pairs_needed(mutant: Mutant, most: u64) -> Option<u64> {
    (0..most).find(|&seed| tells(mutant, &generator::alike::pair(seed))).map(|seed| seed + 1)
}

/// The view, or the number of the refusal.
pub fn view<R: Rules>(rules: &R, file: &[u8], reader: usize) -> Result<Vec<u8>, u8> {
    let mut buffer = vec![0; MAX_VIEW];
    let length = read_by(rules, file, reader, &mut buffer).map_err(|refusal| refusal.number())?;
    buffer.truncate(length);
    Ok(buffer)
}
