//! Times every load on every implementation, in turns, and keeps the best; then
//! measures the stack that each takes. Most loads are read, one is read and its view
//! printed, some are quoted. A last line for each implementation has its quotes beside a
//! view.

#[cfg(feature = "proved")]
mod line_call;
mod lines;
mod loads;
mod stack;

use loads::{loads, Kind, Load, Unit, VIEW};
use std::hint::black_box;
use std::time::{Duration, Instant};

type Read = fn(&[u8], usize, &mut [u8]) -> Result<usize, u8>;

struct Implementation {
    name: &'static str,
    read: Read,
    read_day: Read,
    // In the form of a read, so that all are timed alike.
    line: Read,
    quote: Read,
}

impl Implementation {
    fn read(&self, load: &Load) -> Read {
        match load.kind {
            Kind::Plain => self.read,
            Kind::Day => self.read_day,
            Kind::Line => self.line,
            Kind::Quote => self.quote,
        }
    }
}

const IMPLEMENTATIONS: &[Implementation] = &[
    Implementation {
        name: "reference",
        read: reference::read,
        read_day: reference::read_day,
        line: lines::of_reference,
        quote: |file, _, _| reference::quote(file).map(|quote| black_box(quote).steps as usize),
    },
    #[cfg(feature = "proved")]
    Implementation {
        name: "proved",
        read: nechwalu::read,
        read_day: nechwalu::read_day,
        line: lines::of_proved,
        quote: |file, _, _| nechwalu::quote(file).map(|quote| black_box(quote).steps as usize),
    },
];

const ROUNDS: usize = 200;
/// Long enough for the clock, short enough for a round to be undisturbed.
const ROUND: Duration = Duration::from_micros(500);
/// Rounds go through this many places of the stack, so that no figure hangs on where it happens to lie: a copy waits
/// where its two ends are some multiple of 4 KB apart.
const PLACES: usize = 40;

fn main() {
    println!("best of {ROUNDS} rounds; stack in bytes touched");
    let mut beside = Vec::new();
    for load in loads() {
        let best = best_times(&load);
        let figures: Vec<String> = IMPLEMENTATIONS
            .iter()
            .zip(&best)
            .map(|(implementation, nanoseconds)| {
                let stack = peak_stack(&load, implementation.read(&load));
                format!("{} {nanoseconds:.2} ns, stack {stack}", implementation.name)
            })
            .collect();
        let unit = match load.unit {
            Unit::Step => "step",
            Unit::Read => "read",
            Unit::Line => "line",
            Unit::Quote => "quote",
        };
        let ratio = match best[..] {
            [reference, proved] => format!("; ratio {:.2}", proved / reference),
            _ => String::new(),
        };
        println!("{:<20} per {unit}: {}{ratio}", load.name, figures.join("; "));
        if load.kind == Kind::Quote || load.name == VIEW {
            beside.push((load, best));
        }
    }
    print_beside(&beside);
}

/// For each implementation its quotes beside the view of the same run.
fn print_beside(times: &[(Load, Vec<f64>)]) {
    let Some((_, views)) = times.iter().find(|(load, _)| load.name == VIEW) else { return };
    for (implementation, at) in IMPLEMENTATIONS.iter().zip(0..) {
        let quotes = times.iter().filter(|(load, _)| load.kind == Kind::Quote);
        let shares: Vec<String> =
            quotes.map(|(load, of_quote)| format!("{} {:.2}", load.name, of_quote[at] / views[at])).collect();
        println!("{}, of the time of the {VIEW}: {}", implementation.name, shares.join(", "));
    }
}

/// For each implementation the best time of one unit, in nanoseconds.
fn best_times(load: &Load) -> Vec<f64> {
    let units = f64::from(load.units());
    let repeats: Vec<u32> = IMPLEMENTATIONS.iter().map(|one| repeats(load, one.read(load))).collect();
    let mut best = vec![f64::INFINITY; IMPLEMENTATIONS.len()];
    for round in 0..ROUNDS {
        for (at, implementation) in IMPLEMENTATIONS.iter().enumerate() {
            let read = implementation.read(load);
            let mut taken = Duration::ZERO;
            deeper(round % PLACES, &mut || taken = time(load, read, repeats[at]));
            best[at] = best[at].min(taken.as_nanos() as f64 / f64::from(repeats[at]) / units);
        }
    }
    best
}

/// Does the work so many frames further down the stack.
#[inline(never)]
fn deeper(frames: usize, work: &mut dyn FnMut()) {
    let frame = black_box([0u8; 64]);
    match frames {
        0 => work(),
        _ => deeper(frames - 1, work),
    }
    black_box(frame);
}

/// How many reads fill a round.
fn repeats(load: &Load, read: Read) -> u32 {
    let mut repeats = 1;
    while time(load, read, repeats) < ROUND {
        repeats *= 2;
    }
    repeats
}

fn time(load: &Load, read: Read, repeats: u32) -> Duration {
    let mut buffer = load.buffer();
    let start = Instant::now();
    for _ in 0..repeats {
        _ = black_box(read(black_box(&load.file), load.reader, &mut buffer));
    }
    start.elapsed()
}

fn peak_stack(load: &Load, read: Read) -> usize {
    let mut buffer = load.buffer();
    stack::peak(|| _ = black_box(read(&load.file, load.reader, &mut buffer)))
}
