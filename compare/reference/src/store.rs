//! The store: the records of a whole run, by place. Bodies share it, and the
//! jobs of a day have it one after the other.

use crate::limits::MAX_PLACES;
use crate::parts::Parts;
use crate::value::{Content, Fault, Record};

#[derive(Clone, Debug)]
pub struct Store {
    // A place stays empty where a block was lent more places than it used.
    records: Vec<Option<Record>>,
}

impl Store {
    /// The input records, each in the place of its index.
    pub fn new(parts: &Parts) -> Store {
        let mut records = Vec::with_capacity(MAX_PLACES);
        records.extend(parts.records().map(Some));
        Store { records }
    }

    /// Makes room for records in the first `places` places.
    pub fn reserve(&mut self, places: usize) {
        self.records.resize(places.max(self.records.len()), None);
    }

    /// The record that a handle stands for. There is always one in a plain file
    /// and in a day: a handle is made with its record, and goes with it.
    #[inline]
    pub fn get(&self, place: u8) -> Option<&Record> {
        self.records.get(place as usize)?.as_ref()
    }

    #[inline]
    pub fn put(&mut self, place: u8, record: Record) {
        self.records[place as usize] = Some(record);
    }

    /// All records with their places, by rising place.
    pub fn iter(&self) -> impl Iterator<Item = (u8, &Record)> {
        (0u8..=u8::MAX).zip(&self.records).filter_map(|(place, record)| Some((place, record.as_ref()?)))
    }

    /// Empties every place from `first` on.
    pub fn empty_from(&mut self, first: usize) {
        self.records.truncate(first);
    }

    /// Puts fault 33 in place of contents that are a handle to a place from
    /// `first` on, whether a record stands there or not.
    pub fn replace_handles_from(&mut self, first: usize) {
        for record in self.records_mut() {
            if let Content::Value(value) = record.content {
                if value.place().is_some_and(|place| usize::from(place) >= first) {
                    record.content = Content::Fault(Fault::VANISHED);
                }
            }
        }
    }

    /// All records, to be changed.
    pub fn records_mut(&mut self) -> impl Iterator<Item = &mut Record> {
        self.records.iter_mut().flatten()
    }
}
