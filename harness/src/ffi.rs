//! The C boundary of the static library. The only unsafe code of the harness.

use crate::flat::Answer;
use crate::library::{Lent, Library, Slice};

#[repr(C)]
struct Adjusted {
    number: u32,
    handle: u32,
}

#[repr(C)]
struct Ranged {
    number: u32,
    start: u32,
    end: u32,
}

type Word = *const u32;
type WordMut = *mut u32;

#[rustfmt::skip]
#[link(name = "cadnohal", kind = "static")]
unsafe extern "C" {
    fn cadnohal_abi() -> u32;

    fn cadnohal_compact(
        types: WordMut, types_len: usize, constants: WordMut, constants_len: usize,
        overrides: WordMut, overrides_len: usize, globals: WordMut, globals_len: usize,
        expressions: WordMut, expressions_len: usize, members: WordMut, members_len: usize,
        components: WordMut, components_len: usize, mentions: WordMut, mentions_len: usize,
        type_map: WordMut, type_map_len: usize, constant_map: WordMut, constant_map_len: usize,
        override_map: WordMut, override_map_len: usize, global_map: WordMut, global_map_len: usize,
        expression_map: WordMut, expression_map_len: usize, keep_unused: u32,
    ) -> Answer;

    fn cadnohal_check(
        types: Word, types_len: usize, constants: Word, constants_len: usize,
        overrides: Word, overrides_len: usize, globals: Word, globals_len: usize,
        expressions: Word, expressions_len: usize, members: Word, members_len: usize,
        components: Word, components_len: usize, mentions: Word, mentions_len: usize,
        type_map: Word, type_map_len: usize, constant_map: Word, constant_map_len: usize,
        override_map: Word, override_map_len: usize, global_map: Word, global_map_len: usize,
        expression_map: Word, expression_map_len: usize,
    ) -> Answer;

    fn cadnohal_lookup(map: Word, map_len: usize, handle: u32) -> u32;
    fn cadnohal_adjust(map: Word, map_len: usize, handle: u32) -> Adjusted;
    fn cadnohal_adjust_range(map: Word, map_len: usize, start: u32, end: u32) -> Ranged;
}

/// The static library that is linked in.
pub struct Linked;

/// The form of the boundary that is declared here.
const ABI: u32 = 2;

/// The linked library, if its functions have the form that is declared here.
pub fn linked() -> Result<&'static Linked, String> {
    // SAFETY: it takes nothing.
    match unsafe { cadnohal_abi() } {
        ABI => Ok(&Linked),
        other => Err(format!("libcadnohal.a has ABI {other}, not {ABI}")),
    }
}

/// Pointer and length of a slice that is lent for reading.
fn lend(slice: &Slice, null: bool) -> (Word, usize) {
    let words = slice.get();
    if words.is_empty() && null {
        return (std::ptr::null(), 0);
    }
    (words.as_ptr(), words.len())
}

/// Pointer and length of a slice that is lent for writing.
fn lend_mut(slice: &mut Slice, null: bool) -> (WordMut, usize) {
    let words = slice.get_mut();
    if words.is_empty() && null {
        return (std::ptr::null_mut(), 0);
    }
    (words.as_mut_ptr(), words.len())
}

/// Pointer and length of a map; an empty one is null.
fn lend_map(map: &[u32]) -> (Word, usize) {
    if map.is_empty() {
        return (std::ptr::null(), 0);
    }
    (map.as_ptr(), map.len())
}

impl Library for Linked {
    fn compact(&self, lent: &mut Lent, keep: bool) -> Answer {
        let null = lent.null;
        let flag = if keep { lent.yes } else { 0 };
        let a = lent.areas.each_mut().map(|slice| lend_mut(slice, null));
        let m = lent.maps.each_mut().map(|slice| lend_mut(slice, null));
        // SAFETY: thirteen slices of their own allocations, each with its own length.
        #[rustfmt::skip]
        let answer = unsafe {
            cadnohal_compact(
                a[0].0, a[0].1, a[1].0, a[1].1, a[2].0, a[2].1, a[3].0, a[3].1,
                a[4].0, a[4].1, a[5].0, a[5].1, a[6].0, a[6].1, a[7].0, a[7].1,
                m[0].0, m[0].1, m[1].0, m[1].1, m[2].0, m[2].1, m[3].0, m[3].1,
                m[4].0, m[4].1, flag,
            )
        };
        answer
    }

    fn check(&self, lent: &Lent) -> Answer {
        let a = lent.areas.each_ref().map(|slice| lend(slice, lent.null));
        let m = lent.maps.each_ref().map(|slice| lend(slice, lent.null));
        // SAFETY: as above, and nothing is written.
        #[rustfmt::skip]
        let answer = unsafe {
            cadnohal_check(
                a[0].0, a[0].1, a[1].0, a[1].1, a[2].0, a[2].1, a[3].0, a[3].1,
                a[4].0, a[4].1, a[5].0, a[5].1, a[6].0, a[6].1, a[7].0, a[7].1,
                m[0].0, m[0].1, m[1].0, m[1].1, m[2].0, m[2].1, m[3].0, m[3].1,
                m[4].0, m[4].1,
            )
        };
        answer
    }

    fn lookup(&self, map: &[u32], handle: u32) -> u32 {
        let (words, length) = lend_map(map);
        // SAFETY: one slice with its length.
        unsafe { cadnohal_lookup(words, length, handle) }
    }

    fn adjust(&self, map: &[u32], handle: u32) -> [u32; 2] {
        let (words, length) = lend_map(map);
        // SAFETY: one slice with its length.
        let answer = unsafe { cadnohal_adjust(words, length, handle) };
        [answer.number, answer.handle]
    }

    fn adjust_range(&self, map: &[u32], start: u32, end: u32) -> [u32; 3] {
        let (words, length) = lend_map(map);
        // SAFETY: one slice with its length.
        let answer = unsafe { cadnohal_adjust_range(words, length, start, end) };
        [answer.number, answer.start, answer.end]
    }
}
