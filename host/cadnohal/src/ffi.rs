//! The C boundary: the library's six functions, each behind a safe one. All unsafe code is here.

use crate::compact::Counts;
use std::{ops::Range, sync::OnceLock};

/// The form of the C boundary that this crate calls: `CADNOHAL_ABI` of the header that it goes by.
pub const ABI: u32 = 2;

/// `cadnohal_answer`: number and place of a refusal, or three zeros and the seven counts.
#[repr(C)]
#[derive(Clone, Copy, Debug, PartialEq, Eq)]
pub(crate) struct Answer {
    pub number: u32,
    pub area: u32,
    pub record: u32,
    pub counts: Counts,
}

/// `cadnohal_adjusted`.
#[repr(C)]
struct Adjusted {
    number: u32,
    handle: u32,
}

/// `cadnohal_range`.
#[repr(C)]
struct Ranged {
    number: u32,
    start: u32,
    end: u32,
}

#[rustfmt::skip]
extern "C" {
    fn cadnohal_abi() -> u32;

    fn cadnohal_compact(
        types: *mut u32, types_length: usize,
        constants: *mut u32, constants_length: usize,
        overrides: *mut u32, overrides_length: usize,
        globals: *mut u32, globals_length: usize,
        expressions: *mut u32, expressions_length: usize,
        members: *mut u32, members_length: usize,
        components: *mut u32, components_length: usize,
        mentions: *mut u32, mentions_length: usize,
        type_map: *mut u32, type_map_length: usize,
        constant_map: *mut u32, constant_map_length: usize,
        override_map: *mut u32, override_map_length: usize,
        global_map: *mut u32, global_map_length: usize,
        expression_map: *mut u32, expression_map_length: usize,
        keep_unused: u32,
    ) -> Answer;

    fn cadnohal_check(
        types: *const u32, types_length: usize,
        constants: *const u32, constants_length: usize,
        overrides: *const u32, overrides_length: usize,
        globals: *const u32, globals_length: usize,
        expressions: *const u32, expressions_length: usize,
        members: *const u32, members_length: usize,
        components: *const u32, components_length: usize,
        mentions: *const u32, mentions_length: usize,
        type_map: *const u32, type_map_length: usize,
        constant_map: *const u32, constant_map_length: usize,
        override_map: *const u32, override_map_length: usize,
        global_map: *const u32, global_map_length: usize,
        expression_map: *const u32, expression_map_length: usize,
    ) -> Answer;

    fn cadnohal_lookup(map: *const u32, map_length: usize, handle: u32) -> u32;
    fn cadnohal_adjust(map: *const u32, map_length: usize, handle: u32) -> Adjusted;
    fn cadnohal_adjust_range(map: *const u32, map_length: usize, start: u32, end: u32) -> Ranged;
}

/// The form of the C boundary that the linked library has. Before any other call the crate asserts
/// that this is [`ABI`], so a program panics that was linked with a library of another form, and
/// before the library has touched a word.
///
/// ```
/// assert_eq!(cadnohal::abi(), cadnohal::ABI);
/// ```
pub fn abi() -> u32 {
    // SAFETY: it takes nothing and answers a word, whatever the form of the others.
    unsafe { cadnohal_abi() }
}

/// Panics where the library has another form, since it would read its arguments wrongly. The
/// library is asked once.
fn linked() {
    static LIBRARY: OnceLock<u32> = OnceLock::new();
    same_form(*LIBRARY.get_or_init(abi));
}

fn same_form(library: u32) {
    assert_eq!(
        library, ABI,
        "libcadnohal.a and the crate cadnohal don't belong together: their ABIs differ"
    );
}

/// Compacts the eight areas and writes the five maps; `keep_unused` is 0 for No, else Yes.
#[rustfmt::skip]
pub(crate) fn compact(areas: [&mut [u32]; 8], maps: [&mut [u32]; 5], keep_unused: u32) -> Answer {
    let [a0, a1, a2, a3, a4, a5, a6, a7] = areas;
    let [m0, m1, m2, m3, m4] = maps;
    linked();
    // SAFETY: each pointer is good for reads and writes of its length, and exclusive borrows don't
    // overlap. An empty slice's pointer dangles; with length 0 it is never followed.
    unsafe {
        cadnohal_compact(
            a0.as_mut_ptr(), a0.len(),
            a1.as_mut_ptr(), a1.len(),
            a2.as_mut_ptr(), a2.len(),
            a3.as_mut_ptr(), a3.len(),
            a4.as_mut_ptr(), a4.len(),
            a5.as_mut_ptr(), a5.len(),
            a6.as_mut_ptr(), a6.len(),
            a7.as_mut_ptr(), a7.len(),
            m0.as_mut_ptr(), m0.len(),
            m1.as_mut_ptr(), m1.len(),
            m2.as_mut_ptr(), m2.len(),
            m3.as_mut_ptr(), m3.len(),
            m4.as_mut_ptr(), m4.len(),
            keep_unused,
        )
    }
}

/// The check of [`compact`] alone: nothing is written, the counts are 0.
#[rustfmt::skip]
pub(crate) fn check(areas: [&[u32]; 8], maps: [&[u32]; 5]) -> Answer {
    let [a0, a1, a2, a3, a4, a5, a6, a7] = areas;
    let [m0, m1, m2, m3, m4] = maps;
    linked();
    // SAFETY: each pointer is good for reads of its length, and nothing is written. An empty
    // slice's pointer dangles; with length 0 it is never followed.
    unsafe {
        cadnohal_check(
            a0.as_ptr(), a0.len(),
            a1.as_ptr(), a1.len(),
            a2.as_ptr(), a2.len(),
            a3.as_ptr(), a3.len(),
            a4.as_ptr(), a4.len(),
            a5.as_ptr(), a5.len(),
            a6.as_ptr(), a6.len(),
            a7.as_ptr(), a7.len(),
            m0.as_ptr(), m0.len(),
            m1.as_ptr(), m1.len(),
            m2.as_ptr(), m2.len(),
            m3.as_ptr(), m3.len(),
            m4.as_ptr(), m4.len(),
        )
    }
}

/// The new handle, or N where it was dropped or lies past the end.
pub(crate) fn lookup(map: &[u32], handle: u32) -> u32 {
    linked();
    // SAFETY: the pointer is good for reads of the map's length, 0 included.
    unsafe { cadnohal_lookup(map.as_ptr(), map.len(), handle) }
}

/// The new handle, or number 8 or 9.
pub(crate) fn adjust(map: &[u32], handle: u32) -> Result<u32, u32> {
    linked();
    // SAFETY: the pointer is good for reads of the map's length, 0 included.
    let answer = unsafe { cadnohal_adjust(map.as_ptr(), map.len(), handle) };
    match answer.number {
        0 => Ok(answer.handle),
        number => Err(number),
    }
}

/// The range of the new handles, or number 8.
pub(crate) fn adjust_range(map: &[u32], range: &Range<u32>) -> Result<Range<u32>, u32> {
    linked();
    // SAFETY: the pointer is good for reads of the map's length, 0 included.
    let answer = unsafe { cadnohal_adjust_range(map.as_ptr(), map.len(), range.start, range.end) };
    match answer.number {
        0 => Ok(answer.start..answer.end),
        number => Err(number),
    }
}

#[cfg(test)]
mod tests {
    use super::*;
    use crate::kinds::{Area, N};
    use std::{
        mem::size_of,
        ptr::{null, null_mut},
    };

    #[test]
    fn answers_are_laid_out_as_in_c() {
        assert_eq!(size_of::<Answer>(), 40);
        assert_eq!(size_of::<Adjusted>(), 8);
        assert_eq!(size_of::<Ranged>(), 12);
    }

    #[test]
    fn the_library_has_the_form_of_header_and_crate() {
        let header = include_str!("../../../include/cadnohal.h");
        let defined = |name: &str| {
            let mut lines = header.lines();
            lines.find_map(|line| line.strip_prefix("#define ")?.strip_prefix(name))
        };
        assert_eq!(defined("CADNOHAL_ABI "), Some(&*ABI.to_string()));
        let version = format!("\"{}\"", env!("CARGO_PKG_VERSION"));
        assert_eq!(defined("CADNOHAL_VERSION "), Some(&*version));
        assert_eq!(abi(), ABI);
    }

    #[test]
    #[should_panic(expected = "don't belong together")]
    fn a_library_of_another_form_is_not_called() {
        same_form(ABI + 1);
    }

    #[test]
    fn null_with_length_0_is_an_empty_slice() {
        let accepted = Answer {
            number: 0,
            area: 0,
            record: 0,
            counts: Counts::default(),
        };
        let (m, c) = (null_mut(), null());
        // SAFETY: NULL with length 0 is an empty slice; it is never followed.
        #[rustfmt::skip]
        let (compacted, checked) = unsafe {
            (
                cadnohal_compact(
                    m, 0, m, 0, m, 0, m, 0, m, 0, m, 0, m, 0, m, 0, m, 0, m, 0, m, 0, m, 0, m, 0, 1,
                ),
                cadnohal_check(
                    c, 0, c, 0, c, 0, c, 0, c, 0, c, 0, c, 0, c, 0, c, 0, c, 0, c, 0, c, 0, c, 0,
                ),
            )
        };
        assert_eq!((compacted, checked), (accepted, accepted));
    }

    #[test]
    fn maps_may_be_null_with_length_0() {
        // SAFETY: as above.
        let (looked_up, adjusted, ranged, past) = unsafe {
            (
                cadnohal_lookup(null(), 0, 0),
                cadnohal_adjust(null(), 0, 0),
                cadnohal_adjust_range(null(), 0, 0, 0),
                cadnohal_adjust_range(null(), 0, 0, 1),
            )
        };
        assert_eq!(looked_up, N);
        assert_eq!((adjusted.number, adjusted.handle), (8, N));
        assert_eq!((ranged.number, ranged.start, ranged.end), (0, 0, 0));
        assert_eq!((past.number, past.start, past.end), (8, N, N));
    }

    #[test]
    fn any_keep_word_but_0_is_yes() {
        for (keep_unused, kept) in [(0, 0), (1, 1), (2, 1), (256, 1), (1 << 31, 1), (N, 1)] {
            let mut types = [0, 1, N, N, 3, 4, 5];
            let mut map = [7];
            let mut areas: [&mut [u32]; 8] = Default::default();
            let mut maps: [&mut [u32]; 5] = Default::default();
            (areas[0], maps[0]) = (&mut types, &mut map);
            let answer = compact(areas, maps, keep_unused);
            assert_eq!((answer.number, answer.counts.types), (0, kept));
            let after = if kept == 1 {
                ([0, 1, N, N, 3, 4, 5], [0])
            } else {
                ([N; Area::Types.width()], [N])
            };
            assert_eq!((types, map), after);
        }
    }

    #[test]
    fn a_refused_answer_is_n() {
        // SAFETY: the pointer is good for reads of one word.
        let dropped = unsafe { cadnohal_adjust([N].as_ptr(), 1, 0) };
        assert_eq!((dropped.number, dropped.handle), (9, N));
        let refused = check(
            [&[1, 0, 0, N, 0, 0, 0], &[], &[], &[], &[], &[], &[], &[]],
            [&[7], &[], &[], &[], &[]],
        );
        assert_eq!((refused.number, refused.area, refused.record), (7, 0, 0));
        assert_eq!(refused.counts, Counts::default());
    }
}
