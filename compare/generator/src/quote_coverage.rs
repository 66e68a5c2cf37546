//! What a set of files to be quoted reaches: refusals, what check 11 finds, ways that
//! matter, and how much of their quotes runs use.

use crate::random::Random;
use crate::{paths, spending};
use reference::file::File;
use reference::opcode::*;
use reference::Quote;
use std::collections::BTreeMap;
use std::fmt;

/// Something that a file can reach.
#[derive(Clone, Copy, Debug, PartialEq, Eq, PartialOrd, Ord)]
pub enum Point {
    Quoted,
    Refused(u8),
    /// Check 11 finds an instruction whose target is itself, or before it.
    Itself(Opcode),
    Back(Opcode),
    /// It finds one that a path comes to, or none does; the latter goes for TRY, too.
    Reached(Opcode),
    Unreached(Opcode),
    /// An instruction of a quoted file is on a path, or on none.
    OnPath(Opcode),
    OffPath(Opcode),
    /// The path that jumps at every IFZ costs less than the quote, or that which never does.
    JumpingLess(Figure),
    FallingLess(Figure),
    /// No path costs both figures.
    TwoPaths,
    /// A figure is above the header's, or past 16 bits.
    AboveHeader(Figure),
    PastShort(Figure),
    /// A run used as much as the quote says, and paths were several, or blocks were paid.
    Used(Figure),
    UsedOfSeveral(Figure),
    UsedWithBlock(Figure),
    /// A run used less.
    UsedLess(Figure),
}

#[derive(Clone, Copy, Debug, PartialEq, Eq, PartialOrd, Ord)]
pub enum Figure {
    Steps,
    Places,
}

type Opcode = u8;

const FIGURES: [Figure; 2] = [Figure::Steps, Figure::Places];

impl Figure {
    fn of(self, quote: Quote) -> u32 {
        match self {
            Figure::Steps => quote.steps,
            Figure::Places => quote.places,
        }
    }
}

/// Every point there is.
pub fn all_points() -> Vec<Point> {
    use Point::*;
    let mut points = vec![Quoted, TwoPaths];
    points.extend((1..=7).chain([11]).map(Refused));
    points.extend([JUMP, IFZ, BLOCK].into_iter().flat_map(|opcode| [Itself(opcode), Back(opcode)]));
    points
        .extend([JUMP, IFZ, BLOCK, TRY].into_iter().flat_map(|opcode| [Reached(opcode), Unreached(opcode)]));
    let quotable = (0..OPCODES as u8).filter(|&opcode| opcode != TRY);
    points.extend(quotable.flat_map(|opcode| [OnPath(opcode), OffPath(opcode)]));
    for of_figure in [JumpingLess, FallingLess, AboveHeader, PastShort, Used, UsedOfSeveral, UsedWithBlock] {
        points.extend(FIGURES.map(of_figure));
    }
    points.extend(FIGURES.map(UsedLess));
    points
}

/// Paths are listed where they are no more than these.
const MOST_PATHS: usize = 500;

/// How often each point was reached.
#[derive(Default)]
pub struct QuoteCoverage {
    counts: BTreeMap<Point, u64>,
    /// Runs, and those that used more than their quote, of which there are to be none.
    pub runs: u64,
    pub overruns: u64,
}

impl QuoteCoverage {
    pub fn add(&mut self, file: &[u8]) {
        match reference::quote(file) {
            Ok(quote) => {
                self.reach(Point::Quoted);
                self.add_quoted(file, quote);
            }
            Err(refusal) => {
                self.reach(Point::Refused(refusal));
                if refusal == 11 {
                    self.add_refused(&code_of(file));
                }
            }
        }
    }

    fn reach(&mut self, point: Point) {
        *self.counts.entry(point).or_default() += 1;
    }

    fn reach_if(&mut self, reached: bool, point: Point) {
        if reached {
            self.reach(point);
        }
    }

    /// What check 11 finds.
    fn add_refused(&mut self, code: &[u8]) {
        let reached = paths::reached(code);
        for at in paths::starts(code) {
            let opcode = code[at];
            let aimed = matches!(opcode, JUMP | IFZ | BLOCK) && paths::target(code, at) <= at;
            if aimed && paths::target(code, at) == at {
                self.reach(Point::Itself(opcode));
            } else if aimed {
                self.reach(Point::Back(opcode));
            }
            if aimed || opcode == TRY {
                let found = if reached.contains(&at) { Point::Reached } else { Point::Unreached };
                self.reach(found(opcode));
            }
        }
    }

    fn add_quoted(&mut self, file: &[u8], quote: Quote) {
        let code = &code_of(file);
        let reached = paths::reached(code);
        for at in paths::starts(code) {
            let found = if reached.contains(&at) { Point::OnPath } else { Point::OffPath };
            self.reach(found(code[at]));
        }
        let job = File::parse(file).expect("a quoted file is valid").job;
        let header = Quote { steps: job.steps.into(), places: job.places.into() };
        let [jumping, falling] = [true, false].map(|jumps| paths::cost(code, &paths::one_way(code, jumps)));
        for figure in FIGURES {
            let most = figure.of(quote);
            self.reach_if(figure.of(jumping) < most, Point::JumpingLess(figure));
            self.reach_if(figure.of(falling) < most, Point::FallingLess(figure));
            self.reach_if(figure.of(header) < most, Point::AboveHeader(figure));
            self.reach_if(most > u16::MAX.into(), Point::PastShort(figure));
        }
        if let Some(paths) = paths::all(code, MOST_PATHS) {
            let both = paths.iter().any(|path| paths::cost(code, path) == quote);
            self.reach_if(!both, Point::TwoPaths);
        }
        let several = reached.iter().any(|&at| code[at] == IFZ);
        let block = reached.iter().any(|&at| code[at] == BLOCK);
        self.add_runs(file, quote, several, block);
    }

    /// Compares runs with their quote.
    fn add_runs(&mut self, file: &[u8], quote: Quote, several: bool, block: bool) {
        for variant in spending::variants(&mut Random::new(file.len() as u64), file) {
            let used = spending::used(&variant);
            self.runs += 1;
            self.overruns += u64::from(used.steps > quote.steps || used.places > quote.places);
            for figure in FIGURES {
                // No places are no feat.
                let all = figure.of(used) == figure.of(quote) && figure.of(quote) > 0;
                self.reach_if(all, Point::Used(figure));
                self.reach_if(all && several, Point::UsedOfSeveral(figure));
                self.reach_if(all && block, Point::UsedWithBlock(figure));
                self.reach_if(figure.of(used) < figure.of(quote), Point::UsedLess(figure));
            }
        }
    }

    pub fn count(&self, point: Point) -> u64 {
        self.counts.get(&point).copied().unwrap_or(0)
    }

    pub fn missing(&self) -> Vec<Point> {
        all_points().into_iter().filter(|&point| self.count(point) == 0).collect()
    }
}

/// The code of a file that stood up to checks 1 to 7.
fn code_of(file: &[u8]) -> Vec<u8> {
    File::parse(file).expect("a valid file").parts.code.to_vec()
}

impl fmt::Display for QuoteCoverage {
    fn fmt(&self, f: &mut fmt::Formatter) -> fmt::Result {
        for point in all_points() {
            let name = match point {
                Point::Itself(opcode) => format!("{} to itself", name(opcode)),
                Point::Back(opcode) => format!("{} back", name(opcode)),
                Point::Reached(opcode) => format!("{} refused, on a path", name(opcode)),
                Point::Unreached(opcode) => format!("{} refused, on none", name(opcode)),
                Point::OnPath(opcode) => format!("{} on a path", name(opcode)),
                Point::OffPath(opcode) => format!("{} on none", name(opcode)),
                point => format!("{point:?}"),
            };
            writeln!(f, "{name:<26} {}", self.count(point))?;
        }
        writeln!(f, "{} runs of quoted files, {} past their quote", self.runs, self.overruns)?;
        let (all, missing) = (all_points().len(), self.missing());
        writeln!(f, "{} of {all} points of quotes reached, missing {missing:?}", all - missing.len())
    }
}

fn name(opcode: u8) -> &'static str {
    SHAPES[opcode as usize].name
}
