//! Writers with one rule wrong: of the words of a table or a number, of all bytes of a word
//! or number, of one byte of it alone, or of the digits. What they write is made from the
//! right view, so that none of them leaks.

use crate::writer::{Cut, Writer, PAPER};

pub struct WrongWriter {
    pub name: String,
    /// What it does instead of the paper's rule.
    pub says: String,
    pub writer: Writer,
}

pub fn all() -> Vec<WrongWriter> {
    let mut all: Vec<WrongWriter> = [TABLES, NUMBERS, FIELDS, WORDS, SHORTS, DIGITS]
        .concat()
        .into_iter()
        .map(|(name, says, change)| wrong(name, says, change))
        .collect();
    for at in 0..PAPER.word.len() {
        all.extend(of_byte("Word", "a word", at, |writer, at| &mut writer.word[at]));
    }
    for at in 0..PAPER.short.len() {
        all.extend(of_byte("Short", "a 16-bit number", at, |writer, at| &mut writer.short[at]));
    }
    all
}

fn wrong(name: impl Into<String>, says: impl Into<String>, change: impl FnOnce(&mut Writer)) -> WrongWriter {
    let mut writer = PAPER;
    change(&mut writer);
    WrongWriter { name: name.into(), says: says.into(), writer }
}

/// Writers that cut one byte wrong, the one of `number` that is at `at`.
fn of_byte(name: &str, number: &str, at: usize, cut: fn(&mut Writer, usize) -> &mut Cut) -> Vec<WrongWriter> {
    let mut changes: Vec<Change> =
        vec![("Higher", "has a shift of 8 too many", higher), ("SevenBits", "has a mask of 127", seven_bits)];
    if at > 0 {
        changes.push(("Lower", "has a shift of 8 too few", |cut| cut.shift -= 8));
    }
    let one = |(end, says, change): Change| {
        wrong(format!("{name}{at}{end}"), format!("byte {at} of {number} {says}"), |writer| {
            change(cut(writer, at))
        })
    };
    changes.into_iter().map(one).collect()
}

type Change = (&'static str, &'static str, fn(&mut Cut));

fn higher(cut: &mut Cut) {
    cut.shift += 8;
}

fn seven_bits(cut: &mut Cut) {
    cut.mask = 127;
}

type Rule = (&'static str, &'static str, fn(&mut Writer));

const TABLES: &[Rule] = &[
    ("TableTurned", "the highest word of a table is the first", |writer| {
        writer.table = |[a, b, c, d]| [d, c, b, a]
    }),
    ("TablePairsTurned", "of each two words of a table the higher is the first", |writer| {
        writer.table = |[a, b, c, d]| [b, a, d, c]
    }),
    ("TableHalvesTurned", "the two higher words of a table are the first", |writer| {
        writer.table = |[a, b, c, d]| [c, d, a, b]
    }),
    ("TableMiddleTurned", "the two middle words of a table are taken for one another", |writer| {
        writer.table = |[a, b, c, d]| [a, c, b, d]
    }),
    ("TableLowest", "all words of a table but the lowest are 0", |writer| {
        writer.table = |[a, _, _, _]| [a, 0, 0, 0]
    }),
    ("TableLowestOnly", "all words of a table are the lowest", |writer| writer.table = |[a, _, _, _]| [a; 4]),
    ("Table0Zero", "word 0 of a table is 0", |writer| writer.table = |[_, b, c, d]| [0, b, c, d]),
    ("Table1Zero", "word 1 of a table is 0", |writer| writer.table = |[a, _, c, d]| [a, 0, c, d]),
    ("Table2Zero", "word 2 of a table is 0", |writer| writer.table = |[a, b, _, d]| [a, b, 0, d]),
    ("Table3Zero", "word 3 of a table is 0", |writer| writer.table = |[a, b, c, _]| [a, b, c, 0]),
    ("Table1Before", "word 1 of a table is word 0", |writer| writer.table = |[a, _, c, d]| [a, a, c, d]),
    ("Table2Before", "word 2 of a table is word 1", |writer| writer.table = |[a, b, _, d]| [a, b, b, d]),
    ("Table3Before", "word 3 of a table is word 2", |writer| writer.table = |[a, b, c, _]| [a, b, c, c]),
    ("FieldsTurned", "the highest word of a table and of a number is the first", |writer| {
        writer.table = |[a, b, c, d]| [d, c, b, a];
        writer.number = |number| [0, 0, 0, number];
    }),
];

const NUMBERS: &[Rule] = &[
    ("NumberFourTimes", "a number stands in all four words", |writer| writer.number = |number| [number; 4]),
    ("NumberHighest", "a number stands in the highest word", |writer| {
        writer.number = |number| [0, 0, 0, number]
    }),
    ("NumberTwice", "a number stands in the two lowest words", |writer| {
        writer.number = |number| [number, number, 0, 0]
    }),
    ("NumberUnderOnes", "all bits above a number's word are 1", |writer| {
        writer.number = |number| [number, u64::MAX, u64::MAX, u64::MAX]
    }),
];

const FIELDS: &[Rule] = &[
    ("WordsParted", "each 8 bytes print as one field", |writer| writer.parts = |at| at > 0 && at % 8 == 0),
    ("HalvesParted", "each 16 bytes print as one field", |writer| writer.parts = |at| at > 0 && at % 16 == 0),
];

const WORDS: &[Rule] = &[
    ("WordHigher", "all bytes of a word have a shift of 8 too many, and the last is 0", |writer| {
        writer.word.iter_mut().for_each(higher)
    }),
    ("WordSevenBits", "all bytes of a word have a mask of 127", |writer| {
        writer.word.iter_mut().for_each(seven_bits)
    }),
    ("WordTurned", "the highest byte of a word is the first", |writer| writer.word.reverse()),
    ("WordUnshifted", "all bytes of a word are the lowest", |writer| {
        writer.word.iter_mut().for_each(|cut| cut.shift = 0)
    }),
    (
        "WordMaskedFirst",
        "a word is masked before it is shifted, and all bytes but the first are 0",
        |writer| writer.word[1..].iter_mut().for_each(|cut| cut.mask = 0),
    ),
    ("WordHalved", "the upper four bytes of a word are 0", |writer| {
        writer.word[4..].iter_mut().for_each(|cut| cut.mask = 0)
    }),
    ("WordHalfTwice", "a word is shifted modulo 32, and its upper four bytes are the lower four", |writer| {
        writer.word.iter_mut().for_each(|cut| cut.shift %= 32)
    }),
];

const SHORTS: &[Rule] = &[
    (
        "ShortHigher",
        "both bytes of a 16-bit number have a shift of 8 too many, and the last is 0",
        |writer| writer.short.iter_mut().for_each(higher),
    ),
    ("ShortSevenBits", "both bytes of a 16-bit number have a mask of 127", |writer| {
        writer.short.iter_mut().for_each(seven_bits)
    }),
    ("ShortTurned", "the high byte of a 16-bit number is the first", |writer| writer.short.reverse()),
];

const DIGITS: &[Rule] = &[
    ("HighMasked", "the high digit is masked and not shifted, and both are the low one", |writer| {
        writer.digits[0].shift = 0
    }),
    ("LowShifted", "the low digit is shifted, too, and both are the high one", |writer| {
        writer.digits[1].shift = 4
    }),
    ("DigitsTurned", "the low digit is the first", |writer| writer.digits.reverse()),
    ("HighThreeBits", "the high digit has a mask of 7", |writer| writer.digits[0].mask = 7),
    ("LowThreeBits", "the low digit has a mask of 7", |writer| writer.digits[1].mask = 7),
    ("UpperCase", "digits above 9 are in upper case", |writer| writer.characters = b"0123456789ABCDEF"),
];
