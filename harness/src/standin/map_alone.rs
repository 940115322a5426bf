//! The published `HandleMap`, asked directly.

use crate::arena::HandleSet;
use crate::handle_set_map::HandleMap;
use crate::{Arena, Handle, Range, Span};

/// A published map made from which of its handles are used, and the arena that is left.
pub struct MapAlone {
    map: HandleMap<u8>,
    compacted: Arena<u8>,
}

impl MapAlone {
    pub fn new(used: &[bool]) -> Self {
        let mut arena = Arena::new();
        for _ in used {
            arena.append(0u8, Span::default());
        }
        let mut set = HandleSet::for_arena(&arena);
        let mut compacted = Arena::new();
        for place in (0..used.len()).filter(|place| used[*place]) {
            set.insert(Handle::from_usize(place));
            compacted.append(0u8, Span::default());
        }
        let map = HandleMap::from_set(set);
        MapAlone { map, compacted }
    }

    /// `get`.
    pub fn lookup(&self, handle: u32) -> Option<u32> {
        let value = self.map.get(Handle::from_usize(handle as usize));
        value.map(|index| index.get())
    }

    /// `adjust`, which panics for a handle that it does not have.
    pub fn adjust(&self, handle: u32) -> u32 {
        let mut handle = Handle::from_usize(handle as usize);
        self.map.adjust(&mut handle);
        handle.index() as u32
    }

    /// `adjust_range`, which panics for a range that is not empty and ends past the map.
    pub fn adjust_range(&self, start: u32, end: u32) -> (u32, u32) {
        let mut range = Range::from_ends(start..end);
        self.map.adjust_range(&mut range, &self.compacted);
        let ends = range.index_range();
        (ends.start, ends.end)
    }
}
