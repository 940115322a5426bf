//! The static library behind the same signature as the plain version.

use crate::flat::{Answer, Areas, Maps};

type Area = *mut u32;
type Read = *const u32;

#[rustfmt::skip]
unsafe extern "C" {
    fn cadnohal_compact(
        types: Area, types_length: usize,
        constants: Area, constants_length: usize,
        overrides: Area, overrides_length: usize,
        globals: Area, globals_length: usize,
        expressions: Area, expressions_length: usize,
        members: Area, members_length: usize,
        components: Area, components_length: usize,
        mentions: Area, mentions_length: usize,
        type_map: Area, type_map_length: usize,
        constant_map: Area, constant_map_length: usize,
        override_map: Area, override_map_length: usize,
        global_map: Area, global_map_length: usize,
        expression_map: Area, expression_map_length: usize,
        keep_unused: u32,
    ) -> Answer;

    fn cadnohal_check(
        types: Read, types_length: usize,
        constants: Read, constants_length: usize,
        overrides: Read, overrides_length: usize,
        globals: Read, globals_length: usize,
        expressions: Read, expressions_length: usize,
        members: Read, members_length: usize,
        components: Read, components_length: usize,
        mentions: Read, mentions_length: usize,
        type_map: Read, type_map_length: usize,
        constant_map: Read, constant_map_length: usize,
        override_map: Read, override_map_length: usize,
        global_map: Read, global_map_length: usize,
        expression_map: Read, expression_map_length: usize,
    ) -> Answer;
}

#[rustfmt::skip]
pub fn compact(areas: Areas<'_>, maps: Maps<'_>, keep_unused: bool) -> Answer {
    // SAFETY: each pointer is good for its length, and mutable slices don't overlap.
    unsafe {
        cadnohal_compact(
            areas.types.as_mut_ptr(), areas.types.len(),
            areas.constants.as_mut_ptr(), areas.constants.len(),
            areas.overrides.as_mut_ptr(), areas.overrides.len(),
            areas.globals.as_mut_ptr(), areas.globals.len(),
            areas.expressions.as_mut_ptr(), areas.expressions.len(),
            areas.members.as_mut_ptr(), areas.members.len(),
            areas.components.as_mut_ptr(), areas.components.len(),
            areas.mentions.as_mut_ptr(), areas.mentions.len(),
            maps.types.as_mut_ptr(), maps.types.len(),
            maps.constants.as_mut_ptr(), maps.constants.len(),
            maps.overrides.as_mut_ptr(), maps.overrides.len(),
            maps.globals.as_mut_ptr(), maps.globals.len(),
            maps.expressions.as_mut_ptr(), maps.expressions.len(),
            u32::from(keep_unused),
        )
    }
}

#[rustfmt::skip]
pub fn check(areas: &Areas<'_>, maps: &Maps<'_>) -> Answer {
    // SAFETY: each pointer is good for its length, and nothing is written.
    unsafe {
        cadnohal_check(
            areas.types.as_ptr(), areas.types.len(),
            areas.constants.as_ptr(), areas.constants.len(),
            areas.overrides.as_ptr(), areas.overrides.len(),
            areas.globals.as_ptr(), areas.globals.len(),
            areas.expressions.as_ptr(), areas.expressions.len(),
            areas.members.as_ptr(), areas.members.len(),
            areas.components.as_ptr(), areas.components.len(),
            areas.mentions.as_ptr(), areas.mentions.len(),
            maps.types.as_ptr(), maps.types.len(),
            maps.constants.as_ptr(), maps.constants.len(),
            maps.overrides.as_ptr(), maps.overrides.len(),
            maps.globals.as_ptr(), maps.globals.len(),
            maps.expressions.as_ptr(), maps.expressions.len(),
        )
    }
}
