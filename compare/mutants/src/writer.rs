//! Writing by words, shifts and masks that can be changed one by one. With the paper's it
//! writes and prints as the reference does, which leaves the last two to the standard library.

use reference::day_rules::DayRules;
use reference::limits::WORDS;
use reference::rules::{Rules, TableOf};
use reference::table::Table;

/// How a byte is cut out of a number, or a digit out of a byte.
#[derive(Clone, Copy, Debug)]
pub struct Cut {
    pub shift: u32,
    pub mask: u64,
}

impl Cut {
    const fn byte(at: u32) -> Cut {
        Cut { shift: 8 * at, mask: 255 }
    }

    fn of(self, number: u64) -> u8 {
        // Nothing is left of a word that is shifted by all its bits.
        let shifted = number.checked_shr(self.shift).unwrap_or(0);
        (shifted & self.mask) as u8
    }
}

/// What stands where a table may stand.
pub type Words = [u64; WORDS];

/// The rules of the writer.
#[derive(Clone, Copy, Debug)]
pub struct Writer {
    /// The words of a table, in the order of the view.
    pub table: fn(Words) -> Words,
    /// The words of a number.
    pub number: fn(u64) -> Words,
    /// Whether there is a space before this byte of a field.
    pub parts: fn(usize) -> bool,
    /// The bytes of a word, in the order of the view.
    pub word: [Cut; 8],
    /// The bytes of a 16-bit number.
    pub short: [Cut; 2],
    /// The digits of a byte, in the order of the line.
    pub digits: [Cut; 2],
    /// The characters of the digits 0 to 15.
    pub characters: &'static [u8; 16],
}

/// The paper's rules.
pub const PAPER: Writer = Writer {
    table: |words| words,
    number: |number| [number, 0, 0, 0],
    parts: |_| false,
    word: [
        Cut::byte(0),
        Cut::byte(1),
        Cut::byte(2),
        Cut::byte(3),
        Cut::byte(4),
        Cut::byte(5),
        Cut::byte(6),
        Cut::byte(7),
    ],
    short: [Cut::byte(0), Cut::byte(1)],
    digits: [Cut { shift: 4, mask: 15 }, Cut { shift: 0, mask: 15 }],
    characters: b"0123456789abcdef",
};

impl DayRules for Writer {}

impl Rules for Writer {
    fn table_words(&self, _of: TableOf, table: Table) -> Words {
        (self.table)(table.0)
    }

    fn number_words(&self, number: u32) -> Words {
        (self.number)(number.into())
    }

    fn parts_field(&self, at: usize) -> bool {
        (self.parts)(at)
    }

    fn short_bytes(&self, number: u16) -> [u8; 2] {
        self.short.map(|cut| cut.of(number.into()))
    }

    fn word_bytes(&self, word: u64) -> [u8; 8] {
        self.word.map(|cut| cut.of(word))
    }

    fn digits(&self, byte: u8) -> [char; 2] {
        self.digits.map(|cut| self.characters[usize::from(cut.of(byte.into()))].into())
    }
}
