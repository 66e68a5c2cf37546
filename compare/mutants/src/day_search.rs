//! Looks for a pair of days, or a day, that tells a mutant from the paper's rules.

use crate::day_list::DayMutant;
use crate::day_wrong::WrongDay;
use crate::list::Harm;
use generator::alike::Pair;
use reference::day::Day;
use reference::day_rules::DayRules;
use reference::parts::Refusal;
use reference::rules::Paper;
use reference::{jobs, read_day_by};

/// Whether the pair tells `mutant` from the paper's rules: by a leak if that is
/// its harm, else by any other answer or byte.
pub fn tells(mutant: DayMutant, pair: &Pair) -> bool {
    match mutant.harm() {
        Harm::Leak => leaks(mutant, pair),
        Harm::Wrong => differs(mutant, &pair.file),
    }
}

/// Whether two alike days are told apart.
pub fn leaks(mutant: DayMutant, pair: &Pair) -> bool {
    let wrong = WrongDay::new(mutant);
    views(&wrong, &pair.file, pair.reader) != views(&wrong, &pair.other, pair.reader)
}

/// Whether a day is read otherwise than by the paper's rules, by any of its
/// labels, with a buffer about as long as all or some of its views.
pub fn differs(mutant: DayMutant, file: &[u8]) -> bool {
    let wrong = WrongDay::new(mutant);
    let labels = Day::parse_parts(file).map_or(0, |day| day.parts.labels().len());
    (0..labels.max(1)).any(|reader| {
        let right = views(&Paper, file, reader);
        if right != views(&wrong, file, reader) {
            return true;
        }
        let Ok(views) = right else { return false };
        buffers(&views)
            .into_iter()
            .any(|buffer| read(&Paper, file, reader, buffer) != read(&wrong, file, reader, buffer))
    })
}

/// Lengths of buffers that tell wrong checks 9 apart: as long as the views, one
/// byte longer and shorter, and as long as the first view, or all but the last.
fn buffers(views: &[Vec<u8>]) -> [usize; 5] {
    let length: usize = views.iter().map(Vec::len).sum();
    let (first, last) = (views[0].len(), views[views.len() - 1].len());
    [length, length + 1, length - 1, first, length - last]
}

/// The views of all jobs, or the number of the refusal.
pub fn views<R: DayRules>(rules: &R, file: &[u8], reader: usize) -> Result<Vec<Vec<u8>>, u8> {
    let day = Day::parse_by(rules, file).map_err(Refusal::number)?;
    let &reader = day.parts.labels().get(reader).ok_or(Refusal::Reader.number())?;
    Ok(jobs::views(&day, &jobs::run(&day, rules), reader, rules))
}

/// How many of the generator's pairs it takes to find `mutant` out, if `most`
/// are enough.
pub fn pairs_needed(mutant: DayMutant, most: u64) -> Option<u64> {
    (0..most).find(|&seed| tells(mutant, &generator::day_alike::pair(seed))).map(|seed| seed + 1)
}

/// The answer, and what a buffer of so many bytes holds afterwards.
pub fn read<R: DayRules>(
    rules: &R,
    file: &[u8],
    reader: usize,
    buffer: usize,
) -> (Result<usize, u8>, Vec<u8>) {
    let mut buffer = vec![0xEE; buffer];
    let answer = read_day_by(rules, file, reader, &mut buffer).map_err(Refusal::number);
    (answer, buffer)
}
