//! Document 01's map entries, restated.

use crate::flat::N;

/// A dropped handle or one past the end gives N.
pub fn lookup(map: &[u32], handle: u32) -> u32 {
    map.get(handle as usize).copied().unwrap_or(N)
}

/// Number and handle: 8 past the end, 9 on N.
pub fn adjust(map: &[u32], handle: u32) -> [u32; 2] {
    match map.get(handle as usize) {
        None => [8, N],
        Some(&N) => [9, N],
        Some(&new) => [0, new],
    }
}

/// Number, start and end: 8 for an end past the map or a start after the end; no live handle gives 0..0.
pub fn adjust_range(map: &[u32], start: u32, end: u32) -> [u32; 3] {
    let (from, to) = (start as usize, end as usize);
    if to > map.len() || from > to {
        return [8, N, N];
    }
    let mut live = map[from..to].iter().copied().filter(|word| *word != N);
    match live.next() {
        None => [0, 0, 0],
        Some(first) => [0, first, live.next_back().unwrap_or(first) + 1],
    }
}
