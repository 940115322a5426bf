//! Document 01's check, restated: the refusal that a module has, or none.

use crate::flat::*;

type Found = Option<Refusal>;

/// The first fault, numbers 1 to 7 in turn, each over all areas before the next.
pub fn expect_check(flat: &Flat) -> Found {
    one(flat)
        .or_else(|| two(flat))
        .or_else(|| three(flat))
        .or_else(|| four(flat))
        .or_else(|| five(flat))
        .or_else(|| six(flat))
        .or_else(|| seven(flat))
}

/// An area's length isn't a multiple of its record width.
fn one(flat: &Flat) -> Found {
    let broken = |area: &usize| !flat.areas[*area].len().is_multiple_of(WIDTHS[*area]);
    (0..8).find(broken).map(|area| Refusal::new(1, area, 0))
}

/// An area has more records than its limit.
fn two(flat: &Flat) -> Found {
    let long = |area: &usize| flat.records(*area) > LIMITS[*area];
    (0..8).find(long).map(|area| Refusal::new(2, area, 0))
}

/// A map area is shorter than its arena's record count.
fn three(flat: &Flat) -> Found {
    let short = |area: &usize| flat.rooms[*area] < flat.records(*area);
    (0..5).find(short).map(|area| Refusal::new(3, area, 0))
}

/// The first record of an area that has a fault.
fn first(flat: &Flat, number: u32, area: usize, fault: impl FnMut(&usize) -> bool) -> Found {
    let place = (0..flat.records(area)).find(fault);
    place.map(|record| Refusal::new(number, area, record))
}

/// A kind, flag, form, mention area, unused slot or pool run breaks the rules.
fn four(flat: &Flat) -> Found {
    let mut member_sum = 0;
    let mut component_sum = 0;
    first(flat, 4, TYPES, |place| {
        misshapen_type(flat, *place, &mut member_sum)
    })
    .or_else(|| misnamed(flat, CONSTANTS))
    .or_else(|| misnamed(flat, OVERRIDES))
    .or_else(|| {
        first(flat, 4, EXPRESSIONS, |place| {
            misshapen_expression(flat, *place, &mut component_sum)
        })
    })
    .or_else(|| longer_than_runs(flat, MEMBERS, member_sum))
    .or_else(|| longer_than_runs(flat, COMPONENTS, component_sum))
    .or_else(|| {
        first(flat, 4, MENTIONS, |place| {
            flat.record(MENTIONS, *place)[0] > 4
        })
    })
}

fn misnamed(flat: &Flat, area: usize) -> Found {
    first(flat, 4, area, |place| flat.record(area, *place)[0] > 1)
}

/// The pool has words past its last run.
fn longer_than_runs(flat: &Flat, pool: usize, sum: u64) -> Found {
    (flat.areas[pool].len() as u64 > sum).then(|| Refusal::new(4, pool, 0))
}

fn misshapen_type(flat: &Flat, place: usize, sum: &mut u64) -> bool {
    let record = flat.record(TYPES, place);
    let (kind, flags) = (record[0], record[1]);
    let words = &record[FIRST_SLOT[TYPES]..];
    kind > 3 || flags > 3 || misshapen_slots(flat, MEMBERS, &type_slots(kind), words, sum)
}

fn misshapen_expression(flat: &Flat, place: usize, sum: &mut u64) -> bool {
    let record = flat.record(EXPRESSIONS, place);
    let kind = record[0];
    if kind == GLOBAL_VARIABLE || kind == CALL_RESULT {
        return false;
    }
    let slots = expression_slots(record);
    let words = &record[FIRST_SLOT[EXPRESSIONS]..];
    kind > 33 || misshapen_slots(flat, COMPONENTS, &slots, words, sum)
}

/// An unused slot that isn't N, a form that isn't one, or a run that isn't packed. `sum` is what the runs
/// before this record come to; this record's run is added.
fn misshapen_slots(flat: &Flat, pool: usize, slots: &[Slot], words: &[u32], sum: &mut u64) -> bool {
    let mut bad = false;
    for (number, slot) in slots.iter().enumerate() {
        bad |= match *slot {
            Slot::Unused => words[number] != N,
            Slot::Form(most) => words[number] > most,
            Slot::Start => {
                let (start, count) = (u64::from(words[number]), u64::from(words[number + 1]));
                let packed = start == *sum && start + count <= flat.areas[pool].len() as u64;
                *sum += count;
                !packed
            }
            Slot::Count | Slot::Need(_) | Slot::May(_) => false,
        };
    }
    bad
}

/// Expression kind 13 or 27.
fn five(flat: &Flat) -> Found {
    first(flat, 5, EXPRESSIONS, |place| {
        let kind = flat.record(EXPRESSIONS, *place)[0];
        kind == GLOBAL_VARIABLE || kind == CALL_RESULT
    })
}

/// A handle that must be there is N, or any handle isn't below its area's record count.
fn six(flat: &Flat) -> Found {
    let arenas = (0..5).find_map(|area| first(flat, 6, area, |place| lost(flat, area, *place)));
    arenas.or_else(|| {
        first(flat, 6, MENTIONS, |place| {
            let mention = flat.record(MENTIONS, *place);
            mention[1] as usize >= flat.records(mention[0] as usize)
        })
    })
}

/// A handle of this record is N where it must be there, or out of range. N is out of every range.
fn lost(flat: &Flat, area: usize, place: usize) -> bool {
    let mut found = false;
    handles(flat, area, place, |to, handle| {
        found |= handle as usize >= flat.records(to);
    });
    found
}

/// A type or expression isn't well ordered.
fn seven(flat: &Flat) -> Found {
    first(flat, 7, TYPES, |place| ill_ordered_type(flat, *place)).or_else(|| {
        let deps = deps(flat);
        first(flat, 7, EXPRESSIONS, |place| {
            ill_ordered_expression(flat, &deps, *place)
        })
    })
}

/// dep(T) for each type, none being below every number.
pub fn deps(flat: &Flat) -> Vec<Option<u32>> {
    let mut largest = None;
    let own = |place| {
        let record = flat.record(TYPES, place);
        let init = if record[0] == 2 {
            flat.record(OVERRIDES, record[3] as usize)[2]
        } else {
            N
        };
        (init != N).then_some(init)
    };
    (0..flat.records(TYPES))
        .map(|place| {
            largest = largest.max(own(place));
            largest
        })
        .collect()
}

/// A base, a member or the type of its override isn't older.
fn ill_ordered_type(flat: &Flat, place: usize) -> bool {
    let mut found = false;
    handles(flat, TYPES, place, |to, handle| {
        let ty = match to {
            OVERRIDES => flat.record(OVERRIDES, handle as usize)[1],
            _ => handle,
        };
        found |= ty as usize >= place;
    });
    found
}

/// An expression, or the init behind its constant or override, isn't older; or dep of a type that it
/// names, or that stands behind, isn't below it.
fn ill_ordered_expression(flat: &Flat, deps: &[Option<u32>], place: usize) -> bool {
    let mut found = false;
    let late = |handle: u32| handle != N && handle as usize >= place;
    let early = |ty: u32| deps[ty as usize] >= Some(place as u32);
    handles(flat, EXPRESSIONS, place, |to, handle| {
        found |= match to {
            EXPRESSIONS => late(handle),
            TYPES => early(handle),
            _ => {
                let behind = flat.record(to, handle as usize);
                early(behind[1]) || late(behind[2])
            }
        };
    });
    found
}
