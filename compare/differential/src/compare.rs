//! Comparing: implementations on one file, and one implementation on two files
//! that are alike.

use crate::trial::{Kind, Trial, IMPLEMENTATIONS};
use generator::alike::Pair;
use generator::random::Random;
use reference::day::Day;
use reference::file::File;
use reference::limits::{shown, view};
use reference::rules::Paper;

/// Differences beyond these are counted and not described.
const DESCRIBED: u64 = 5;

#[derive(Default)]
pub struct Comparison {
    pub files: u64,
    pub pairs: u64,
    pub days: u64,
    pub day_pairs: u64,
    pub quotes: u64,
    pub reads: u64,
    pub differences: u64,
}

impl Comparison {
    /// Reads `file` for all its labels and some indices that are none, with
    /// buffers that are long, just long enough, and too short.
    pub fn file(&mut self, name: &str, file: &[u8], random: &mut Random) {
        self.files += 1;
        let labels = File::parse_parts(file).map_or(0, |file| file.parts.labels().len());
        for reader in readers(labels) {
            let long = Kind::Plain.long_buffer();
            let Ok(length) = self.one_read(Kind::Plain, name, file, reader, long) else { continue };
            for buffer in [length, length - 1, random.below(length)] {
                _ = self.one_read(Kind::Plain, name, file, reader, buffer);
            }
        }
    }

    /// The same for a day; buffers also around the most that its jobs may need.
    pub fn day(&mut self, name: &str, file: &[u8], random: &mut Random) {
        self.days += 1;
        let labels = Day::parse_parts(file).map_or(0, |day| day.parts.labels().len());
        let most = most_needed(file);
        let longest_for = random.below(labels + 1);
        for reader in readers(labels) {
            // The longest buffer takes its time, and one reader is enough for it.
            let first = if reader == longest_for { Kind::Day.long_buffer() } else { most + 32 };
            let Ok(length) = self.one_read(Kind::Day, name, file, reader, first) else { continue };
            let between = random.within(length, most.max(length));
            for buffer in [most, most - 1, between, length, length - 1, random.below(length)] {
                _ = self.one_read(Kind::Day, name, file, reader, buffer);
            }
        }
    }

    /// One read by every implementation; gives the reference's answer.
    fn one_read(
        &mut self,
        kind: Kind,
        name: &str,
        file: &[u8],
        reader: usize,
        buffer: usize,
    ) -> Result<usize, u8> {
        let mut first = None;
        for &implementation in IMPLEMENTATIONS {
            self.reads += 1;
            let trial = Trial::new(kind, implementation, file, reader, buffer);
            if let Some(offence) = trial.offence() {
                let what = format!("{} {offence}", implementation.name);
                self.differ(name, &what, &[file], reader, buffer);
            }
            match &first {
                None => first = Some(trial),
                Some(reference) if *reference == trial => (),
                Some(reference) => {
                    let what = format!(
                        "reference answers {:?}, {} {:?}, or their views differ",
                        reference.answer, implementation.name, trial.answer
                    );
                    self.differ(name, &what, &[file], reader, buffer);
                }
            }
        }
        first.map_or(Err(0), |trial| trial.answer)
    }

    /// Demand 3: two alike files give one view.
    pub fn pair(&mut self, name: &str, pair: &Pair) {
        self.pairs += 1;
        _ = self.alike(Kind::Plain, name, pair, Kind::Plain.long_buffer());
    }

    /// Demand 3 over a whole day, also with a buffer that is too short by a byte.
    pub fn day_pair(&mut self, name: &str, pair: &Pair) {
        self.day_pairs += 1;
        let length = self.alike(Kind::Day, name, pair, most_needed(&pair.file) + 32);
        if let Ok(length) = length {
            _ = self.alike(Kind::Day, name, pair, length);
            _ = self.alike(Kind::Day, name, pair, length - 1);
        }
    }

    /// Gives the reference's answer for the first of the two.
    fn alike(&mut self, kind: Kind, name: &str, pair: &Pair, buffer: usize) -> Result<usize, u8> {
        let mut answer = None;
        for &implementation in IMPLEMENTATIONS {
            self.reads += 2;
            let [one, other] = [&pair.file, &pair.other]
                .map(|file| Trial::new(kind, implementation, file, pair.reader, buffer));
            if one != other {
                let what = format!("{} tells alike files apart", implementation.name);
                self.differ(name, &what, &[&pair.file, &pair.other], pair.reader, buffer);
            }
            answer.get_or_insert(one.answer);
        }
        answer.unwrap_or(Err(0))
    }

    fn differ(&mut self, name: &str, what: &str, files: &[&[u8]], reader: usize, buffer: usize) {
        self.differences += 1;
        if self.differences > DESCRIBED {
            return;
        }
        eprintln!("{name}: {what}; reader {reader}, buffer of {buffer} bytes");
        files.iter().for_each(|file| print_hex(file));
    }

    /// A difference that has nothing to do with a reader or a buffer.
    pub fn differ_in_quote(&mut self, name: &str, what: &str, file: &[u8]) {
        self.differences += 1;
        if self.differences <= DESCRIBED {
            eprintln!("{name}: {what}");
            print_hex(file);
        }
    }
}

fn print_hex(file: &[u8]) {
    let hex: String = file.iter().map(|byte| format!("{byte:02x}")).collect();
    eprintln!("  {hex}");
}

/// All labels, and some indices that are none.
fn readers(labels: usize) -> impl Iterator<Item = usize> {
    (0..labels).chain([labels, labels + 1, labels + 256, usize::MAX])
}

/// The most bytes that the views of a day may take: a record in every place of
/// every job, all shown. For a day that is refused, the shortest view.
fn most_needed(file: &[u8]) -> usize {
    let Ok(day) = Day::parse(file) else { return view::RECORDS };
    day.jobs(&Paper).map(|job| view::RECORDS + shown::LENGTH * usize::from(job.places)).sum()
}
