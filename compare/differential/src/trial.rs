//! One call, watched: its answer, and every byte of the buffer and behind it.

use reference::limits::{view, MAX_DAY, MAX_VIEW};
use reference::Quote;

pub type Read = fn(&[u8], usize, &mut [u8]) -> Result<usize, u8>;
pub type Quoting = fn(&[u8]) -> Result<Quote, u8>;

#[derive(Clone, Copy)]
pub struct Implementation {
    pub name: &'static str,
    pub read: Read,
    pub read_day: Read,
    pub quote: Quoting,
}

/// The reference first, and the proved library if it is linked.
pub const IMPLEMENTATIONS: &[Implementation] = &[
    Implementation {
        name: "reference",
        read: reference::read,
        read_day: reference::read_day,
        quote: reference::quote,
    },
    #[cfg(feature = "proved")]
    Implementation {
        name: "proved",
        read: nechwalu::read,
        read_day: nechwalu::read_day,
        quote: |file| nechwalu::quote(file).map(|quote| Quote { steps: quote.steps, places: quote.places }),
    },
];

/// What a file is read as.
#[derive(Clone, Copy, Debug, PartialEq, Eq)]
pub enum Kind {
    Plain,
    Day,
}

impl Kind {
    fn read(self, implementation: Implementation) -> Read {
        match self {
            Kind::Plain => implementation.read,
            Kind::Day => implementation.read_day,
        }
    }

    fn refuses_with(self, number: u8) -> bool {
        match self {
            Kind::Plain => (1..=9).contains(&number),
            Kind::Day => (1..=10).contains(&number) && number != 5,
        }
    }

    /// A buffer that is longer than any view, or all of any day's.
    pub fn long_buffer(self) -> usize {
        match self {
            Kind::Plain => MAX_VIEW + 32,
            Kind::Day => MAX_DAY + 32,
        }
    }
}

/// Bytes behind the buffer that no call may touch.
const GUARD: usize = 64;

/// What the memory holds before a call. No byte is like its neighbours, so
/// that a moved one shows too.
fn before(at: usize) -> u8 {
    (at as u8).wrapping_mul(31) ^ 0xA5
}

/// What a call did.
#[derive(Clone, Debug, PartialEq, Eq)]
pub struct Trial {
    kind: Kind,
    pub answer: Result<usize, u8>,
    /// The buffer and the guard bytes behind it.
    memory: Vec<u8>,
}

impl Trial {
    pub fn new(
        kind: Kind,
        implementation: Implementation,
        file: &[u8],
        reader: usize,
        buffer: usize,
    ) -> Trial {
        let mut memory: Vec<u8> = (0..buffer + GUARD).map(before).collect();
        let answer = kind.read(implementation)(file, reader, &mut memory[..buffer]);
        Trial { kind, answer, memory }
    }

    /// What the call did to bytes that it should leave alone, or with its
    /// answer alone, if anything.
    pub fn offence(&self) -> Option<&'static str> {
        let written = match self.answer {
            Err(number) if self.kind.refuses_with(number) => 0,
            Err(_) => return Some("answers no refusal that there is"),
            Ok(length) if length > self.memory.len() - GUARD => return Some("answers more than the buffer"),
            Ok(length) => length,
        };
        let touched = (written..self.memory.len()).any(|at| self.memory[at] != before(at));
        if touched {
            return Some("touches bytes behind its view");
        }
        if self.lengths_hold(written) {
            None
        } else {
            Some("answers another length than its view's")
        }
    }

    /// Whether the written bytes are views as long as their length fields say, of
    /// a plain file at most one.
    fn lengths_hold(&self, written: usize) -> bool {
        let mut views = 0;
        let mut at = 0;
        while at < written {
            let Some(front) = self.memory[..written].get(at..at + view::RECORDS) else { return false };
            let length = usize::from(u16::from_le_bytes([front[view::LENGTH], front[view::LENGTH + 1]]));
            if length < view::RECORDS {
                return false;
            }
            at += length;
            views += 1;
        }
        at == written && (self.kind == Kind::Day || views <= 1)
    }
}

#[cfg(test)]
mod tests {
    use super::*;

    fn offence_of(kind: Kind, read: Read) -> Option<&'static str> {
        let wrong = Implementation { name: "wrong", read, read_day: read, quote: |_| Err(1) };
        Trial::new(kind, wrong, &[], 0, 600).offence()
    }

    fn offence(read: Read) -> Option<&'static str> {
        offence_of(Kind::Plain, read)
    }

    /// Writes the length field of a view and answers with it.
    fn view_of(length: u16, buffer: &mut [u8]) -> Result<usize, u8> {
        buffer[..usize::from(length)].fill(0);
        buffer[view::LENGTH..view::LENGTH + 2].copy_from_slice(&length.to_le_bytes());
        Ok(length.into())
    }

    fn two_views(buffer: &mut [u8]) -> Result<usize, u8> {
        Ok(view_of(206, buffer)? + view_of(338, &mut buffer[206..])?)
    }

    #[test]
    fn what_is_right_is_no_offence() {
        assert_eq!(offence(|_, _, buffer| view_of(206, buffer)), None);
        assert_eq!(offence(|_, _, buffer| view_of(338, buffer)), None);
        assert_eq!(offence(|_, _, _| Err(9)), None);
        assert_eq!(offence_of(Kind::Day, |_, _, buffer| view_of(338, buffer)), None);
        assert_eq!(offence_of(Kind::Day, |_, _, buffer| two_views(buffer)), None);
        assert_eq!(offence_of(Kind::Day, |_, _, _| Err(10)), None);
    }

    #[test]
    fn answers_that_cannot_be() {
        assert!(offence(|_, _, _| Err(0)).is_some());
        assert!(offence(|_, _, _| Err(10)).is_some());
        assert!(offence(|_, _, _| Ok(601)).is_some());
        assert!(offence_of(Kind::Day, |_, _, _| Err(5)).is_some());
        assert!(offence_of(Kind::Day, |_, _, _| Err(11)).is_some());
        assert!(offence_of(Kind::Day, |_, _, _| Err(0)).is_some());
    }

    #[test]
    fn bytes_touched_behind_the_view() {
        for kind in [Kind::Plain, Kind::Day] {
            assert!(offence_of(kind, |_, _, buffer| {
                buffer[339] ^= 1;
                view_of(338, buffer)
            })
            .is_some());
            assert!(offence_of(kind, |_, _, buffer| {
                buffer[0] ^= 1;
                Err(9)
            })
            .is_some());
        }
    }

    #[test]
    fn a_length_that_is_not_the_view_s() {
        for kind in [Kind::Plain, Kind::Day] {
            assert!(
                offence_of(kind, |_, _, buffer| view_of(338, buffer).map(|length| length - 132)).is_some()
            );
            assert!(offence_of(kind, |_, _, buffer| view_of(206, buffer).map(|_| 338)).is_some());
        }
        assert!(offence(|_, _, buffer| two_views(buffer)).is_some());
        assert!(offence_of(Kind::Day, |_, _, buffer| two_views(buffer).map(|length| length - 1)).is_some());
    }
}
