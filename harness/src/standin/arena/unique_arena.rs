//! An arena that holds each value once: a second insert of an equal value gives the first one's handle.

use super::Handle;
use crate::Span;
use core::hash::{BuildHasher, Hash};
use core::ops;
use std::collections::hash_map::DefaultHasher;
use std::hash::BuildHasherDefault;

/// No place, in the table.
const FREE: u32 = u32::MAX;

#[derive(Clone, Debug)]
pub struct UniqueArena<T> {
    values: Vec<T>,
    spans: Vec<Span>,
    /// Places of the values, each at its hash or after it; twice as many as values or more.
    table: Vec<u32>,
}

impl<T> Default for UniqueArena<T> {
    fn default() -> Self {
        Self::new()
    }
}

impl<T> UniqueArena<T> {
    pub const fn new() -> Self {
        UniqueArena {
            values: Vec::new(),
            spans: Vec::new(),
            table: Vec::new(),
        }
    }

    pub fn len(&self) -> usize {
        self.values.len()
    }

    pub fn get_span(&self, handle: Handle<T>) -> Span {
        self.spans[handle.index()]
    }

    pub fn iter(&self) -> impl DoubleEndedIterator<Item = (Handle<T>, &T)> + ExactSizeIterator {
        let values = self.values.iter().enumerate();
        values.map(|(place, value)| (Handle::from_usize(place), value))
    }

    /// Takes every value out, in order.
    pub fn drain_all(&mut self) -> impl Iterator<Item = (Handle<T>, T, Span)> {
        let all = core::mem::take(self);
        let pairs = all.values.into_iter().zip(all.spans).enumerate();
        pairs.map(|(place, (value, span))| (Handle::from_usize(place), value, span))
    }
}

impl<T: Eq + Hash> UniqueArena<T> {
    /// The handle of this value, new or old.
    pub fn insert(&mut self, value: T, span: Span) -> Handle<T> {
        if self.table.len() < 2 * (self.values.len() + 1) {
            self.grow();
        }
        let slot = self.slot(&value);
        if self.table[slot] == FREE {
            self.table[slot] = self.values.len() as u32;
            self.values.push(value);
            self.spans.push(span);
        }
        Handle::from_usize(self.table[slot] as usize)
    }

    /// The handle of this value, if it is there.
    pub fn get(&self, value: &T) -> Option<Handle<T>> {
        if self.table.is_empty() {
            return None;
        }
        let place = self.table[self.slot(value)];
        (place != FREE).then(|| Handle::from_usize(place as usize))
    }

    /// Where the value stands in the table, or the free slot where it belongs.
    fn slot(&self, value: &T) -> usize {
        let hasher = BuildHasherDefault::<DefaultHasher>::default();
        let mask = self.table.len() - 1;
        let mut slot = hasher.hash_one(value) as usize & mask;
        while self.table[slot] != FREE && self.values[self.table[slot] as usize] != *value {
            slot = (slot + 1) & mask;
        }
        slot
    }

    /// A larger table with the same values.
    fn grow(&mut self) {
        let size = (4 * (self.values.len() + 1)).next_power_of_two();
        self.table = vec![FREE; size];
        for place in 0..self.values.len() {
            let slot = self.slot(&self.values[place]);
            self.table[slot] = place as u32;
        }
    }
}

impl<T> ops::Index<Handle<T>> for UniqueArena<T> {
    type Output = T;

    fn index(&self, handle: Handle<T>) -> &T {
        &self.values[handle.index()]
    }
}
