//! Modules that keep every record of the arenas that they fill, with either flag; and such that keep half or
//! nothing.
//!
//! Each new element names what nothing names yet. What is left at the end becomes a root.

use super::good::{Grower, Style, POOL_WORDS};
use super::set_rooms;
use crate::closure::closure;
use crate::flat::*;
use crate::rng::Rng;

/// The arenas that are filled, by turns.
pub const FULL: [&[usize]; 7] = [
    &[TYPES, CONSTANTS, OVERRIDES, GLOBALS, EXPRESSIONS],
    &[TYPES, EXPRESSIONS],
    &[TYPES],
    &[CONSTANTS],
    &[OVERRIDES],
    &[GLOBALS],
    &[EXPRESSIONS],
];

/// All five arenas.
pub const ALL: usize = 0;

/// Long chains of types and of expressions.
pub const CHAINS: usize = 1;

/// The most records of an arena that is not filled.
const FEW: usize = 64;

/// A module that keeps so many records of each arena that `FULL` has at this place; with both pools filled
/// or with neither.
pub fn whole(rng: &mut Rng, at: usize, records: usize, fill: bool) -> Flat {
    loop {
        let flat = attempt(rng, at, records, fill);
        let marks = closure(&flat, false);
        let whole = |area: &usize| !marks[*area].contains(&false);
        // Now and then there are too few mentions for all that is left. Types and expressions own the pools.
        if FULL[at].iter().chain(&[TYPES, EXPRESSIONS]).all(whole) {
            return flat;
        }
    }
}

/// A module with all five arenas and both pools filled, and no roots but the globals with Yes.
pub fn rootless(rng: &mut Rng, records: usize) -> Flat {
    let mut flat = attempt(rng, ALL, records, true);
    for area in [TYPES, CONSTANTS, OVERRIDES] {
        for place in 0..records {
            nameless(area, flat.record_mut(area, place));
        }
    }
    flat.areas[MENTIONS].clear();
    flat
}

/// A module with all five arenas and both pools filled, of which No keeps every second record and half of each
/// pool: one of half the size that is kept whole, and between its records the same ones again without roots.
pub fn half(rng: &mut Rng, records: usize) -> Flat {
    let old = whole(rng, ALL, records / 2, true);
    let mut flat = Flat::default();
    for area in 0..5 {
        for place in 0..old.records(area) {
            for copy in 0..2 {
                double(&old, area, place, copy, &mut flat);
            }
        }
    }
    for mention in old.each(MENTIONS) {
        flat.push(MENTIONS, &[mention[0], 2 * mention[1]]);
    }
    set_rooms(&mut flat, rng);
    flat
}

/// Appends a record whose handles stay among the copies of one sort.
fn double(old: &Flat, area: usize, place: usize, copy: u32, flat: &mut Flat) {
    let mut record = old.record(area, place).to_vec();
    let slots = slots(area, &record);
    for (number, slot) in slots.iter().enumerate() {
        let at = FIRST_SLOT[area] + number;
        match *slot {
            Slot::Need(_) | Slot::May(_) if record[at] != N => record[at] = 2 * record[at] + copy,
            Slot::Start => {
                let pool = pool_of(area);
                let (start, count) = (record[at] as usize, record[at + 1] as usize);
                record[at] = flat.areas[pool].len() as u32;
                let run = old.areas[pool][start..start + count].iter();
                flat.areas[pool].extend(run.map(|item| 2 * item + copy));
            }
            _ => {}
        }
    }
    if copy == 1 {
        nameless(area, &mut record);
    }
    flat.push(area, &record);
}

/// Takes a record's name away, if it can have one.
fn nameless(area: usize, record: &mut [u32]) {
    match area {
        TYPES => record[1] &= !NAMED,
        CONSTANTS | OVERRIDES => record[0] = 0,
        _ => {}
    }
}

fn attempt(rng: &mut Rng, at: usize, records: usize, fill: bool) -> Flat {
    let counts = std::array::from_fn(|area| match FULL[at].contains(&area) {
        true => records,
        false => rng.between(2, FEW),
    });
    let style = match at {
        CHAINS => Style::Chain,
        _ => Style::Loose,
    };
    let pool = if fill {
        POOL_WORDS * records
    } else {
        LIMITS[MEMBERS]
    };
    let mut grower = grown(rng, counts, style, fill, pool);
    name_constants(&mut grower);
    mention(&mut grower, FULL[at]);
    let mut flat = grower.flat;
    set_rooms(&mut flat, rng);
    flat
}

/// So many records of each arena. Overrides and constants come before the last types and expressions,
/// which name them; globals come last, since nothing names them.
fn grown(rng: &mut Rng, counts: [usize; 5], style: Style, fill: bool, pool: usize) -> Grower<'_> {
    let (longest_run, named) = (*rng.pick(&[1, 3, 6]), *rng.pick(&[2, 4, 40]));
    let later: [usize; 5] = std::array::from_fn(|area| match area {
        TYPES | EXPRESSIONS => counts[area].div_ceil(2),
        GLOBALS => counts[area],
        _ => 0,
    });
    let mut grower = Grower {
        flat: Flat::default(),
        rng,
        style,
        left: std::array::from_fn(|area| counts[area] - later[area]),
        loose: Default::default(),
        longest_run,
        fill: false,
        pool,
        named,
        sized: true,
    };
    grower.grow_all();
    grower.fill = fill;
    for area in [TYPES, EXPRESSIONS] {
        grower.left[area] += later[area];
    }
    grower.grow_all();
    grower.left[GLOBALS] += later[GLOBALS];
    grower.grow_all();
    grower
}

/// Makes each constant that nothing names a root: it gets a name, and no type is abstract.
fn name_constants(grower: &mut Grower) {
    for constant in std::mem::take(&mut grower.loose[CONSTANTS]) {
        grower.flat.record_mut(CONSTANTS, constant as usize)[0] = 1;
    }
    for ty in grower.flat.each_mut(TYPES) {
        ty[1] &= !ABSTRACT;
    }
}

/// Mentions what nothing names, in the arenas that are filled first.
fn mention(grower: &mut Grower, full: &[usize]) {
    let mut areas = [TYPES, EXPRESSIONS, OVERRIDES, GLOBALS];
    areas.sort_by_key(|area| !full.contains(area));
    let loose = areas.iter().flat_map(|area| {
        let handles = grower.loose[*area].iter();
        handles.map(|handle| [*area as u32, *handle])
    });
    let mut mentions: Vec<[u32; 2]> = loose.take(LIMITS[MENTIONS]).collect();
    grower.rng.shuffle(&mut mentions);
    for mention in mentions {
        grower.flat.push(MENTIONS, &mention);
    }
}
