//! The five functions under test, whoever answers them.

use crate::closure;
use crate::expect::expect_check;
use crate::flat::*;
use crate::maps;

/// Words before and after each lent slice, which nobody may write.
const GUARD: usize = 4;
const GUARD_WORD: u32 = 0xdead_c0de;

/// The words of one lent slice, with guards around them.
#[derive(Clone, Debug)]
pub struct Slice {
    words: Vec<u32>,
}

impl Slice {
    fn new(inner: impl ExactSizeIterator<Item = u32>) -> Self {
        let mut words = Vec::with_capacity(inner.len() + 2 * GUARD);
        words.resize(GUARD, GUARD_WORD);
        words.extend(inner);
        words.resize(words.len() + GUARD, GUARD_WORD);
        Slice { words }
    }

    pub fn get(&self) -> &[u32] {
        &self.words[GUARD..self.words.len() - GUARD]
    }

    pub fn get_mut(&mut self) -> &mut [u32] {
        let end = self.words.len() - GUARD;
        &mut self.words[GUARD..end]
    }

    /// Writes past the slice's end, as a wrong library would.
    pub fn break_guard(&mut self) {
        let end = self.words.len() - GUARD;
        self.words[end] = 0;
    }

    /// Whether the words around the slice are as they were.
    pub fn guarded(&self) -> bool {
        let end = self.words.len() - GUARD;
        let guards = self.words[..GUARD].iter().chain(&self.words[end..]);
        guards.copied().all(|word| word == GUARD_WORD)
    }
}

/// Eight areas and five maps, as they are lent.
#[derive(Clone, Debug)]
pub struct Lent {
    pub areas: [Slice; 8],
    pub maps: [Slice; 5],
    /// Whether an empty slice is lent as a null pointer.
    #[cfg_attr(not(library), allow(dead_code))]
    pub null: bool,
    /// The word that stands for Yes: any but 0.
    pub yes: u32,
}

const YES: [u32; 8] = [1, 1, 1, 2, 1 << 8, 1 << 16, 1 << 31, u32::MAX];

impl Lent {
    /// The words of a module, with `fill` of its place in each word of each map.
    pub fn new(flat: &Flat, fill: impl Fn(usize) -> u32) -> Self {
        let words = flat.words();
        let null = words.is_multiple_of(2);
        let yes = YES[words / 2 % YES.len()];
        Lent {
            areas: std::array::from_fn(|area| Slice::new(flat.areas[area].iter().copied())),
            maps: std::array::from_fn(|area| Slice::new((0..flat.rooms[area]).map(&fill))),
            null,
            yes,
        }
    }

    pub fn guarded(&self) -> bool {
        self.areas.iter().chain(&self.maps).all(Slice::guarded)
    }

    /// The lent words as a module.
    pub fn flat(&self) -> Flat {
        Flat {
            areas: std::array::from_fn(|area| self.areas[area].get().to_vec()),
            rooms: std::array::from_fn(|area| self.maps[area].get().len()),
        }
    }

    /// Writes what an accepted pass leaves, and gives its answer.
    pub fn leave(&mut self, after: &After) -> Answer {
        for (slice, words) in self.areas.iter_mut().zip(&after.areas) {
            slice.get_mut().copy_from_slice(words);
        }
        for (slice, map) in self.maps.iter_mut().zip(&after.maps) {
            slice.get_mut()[..map.len()].copy_from_slice(map);
        }
        Answer {
            counts: after.counts,
            ..Answer::default()
        }
    }
}

pub trait Library: Sync {
    /// A pass; `keep` is the flag, Yes or No.
    fn compact(&self, lent: &mut Lent, keep: bool) -> Answer;
    fn check(&self, lent: &Lent) -> Answer;
    fn lookup(&self, map: &[u32], handle: u32) -> u32;
    /// Number and handle.
    fn adjust(&self, map: &[u32], handle: u32) -> [u32; 2];
    /// Number, start and end.
    fn adjust_range(&self, map: &[u32], start: u32, end: u32) -> [u32; 3];
}

/// The harness's own restatement of document 01.
pub struct Restated;

impl Library for Restated {
    fn compact(&self, lent: &mut Lent, keep: bool) -> Answer {
        let flat = lent.flat();
        if let Some(refusal) = expect_check(&flat) {
            return refusal.answer();
        }
        let after = closure::after(&flat, &closure::closure(&flat, keep));
        lent.leave(&after)
    }

    fn check(&self, lent: &Lent) -> Answer {
        expect_check(&lent.flat()).map_or(Answer::default(), Refusal::answer)
    }

    fn lookup(&self, map: &[u32], handle: u32) -> u32 {
        maps::lookup(map, handle)
    }

    fn adjust(&self, map: &[u32], handle: u32) -> [u32; 2] {
        maps::adjust(map, handle)
    }

    fn adjust_range(&self, map: &[u32], start: u32, end: u32) -> [u32; 3] {
        maps::adjust_range(map, start, end)
    }
}
