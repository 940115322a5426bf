//! What has to be kept, by plain reachability, and what a pass that keeps just that must leave.
//! Beside it document 01's sweep, to tell where that alone falls short.

use crate::expect::deps;
use crate::flat::*;

/// Which records of areas 0 to 4 are marked.
pub type Marks = [Vec<bool>; 5];

/// The roots: mentions, and what the flags and the mode make one.
pub fn roots(flat: &Flat, keep: bool) -> Marks {
    let mut marks: Marks = std::array::from_fn(|area| vec![false; flat.records(area)]);
    for mention in flat.each(MENTIONS) {
        marks[mention[0] as usize][mention[1] as usize] = true;
    }
    for (place, constant) in flat.each(CONSTANTS).enumerate() {
        let ty = flat.record(TYPES, constant[1] as usize);
        if constant[0] == 1 && ty[1] & ABSTRACT == 0 {
            marks[CONSTANTS][place] = true;
        }
    }
    if keep {
        marks[GLOBALS].fill(true);
        for (place, item) in flat.each(OVERRIDES).enumerate() {
            marks[OVERRIDES][place] |= item[0] == 1;
        }
        for (place, ty) in flat.each(TYPES).enumerate() {
            marks[TYPES][place] |= ty[1] & NAMED != 0;
        }
    }
    marks
}

/// All that references lead to from the roots.
pub fn closure(flat: &Flat, keep: bool) -> Marks {
    let mut marks = roots(flat, keep);
    let mut open: Vec<(usize, usize)> = Vec::new();
    for (area, list) in marks.iter().enumerate() {
        let marked = (0..list.len()).filter(|place| list[*place]);
        open.extend(marked.map(|place| (area, place)));
    }
    while let Some((area, place)) = open.pop() {
        handles(flat, area, place, |to, handle| {
            let handle = handle as usize;
            if !std::mem::replace(&mut marks[to][handle], true) {
                open.push((to, handle));
            }
        });
    }
    marks
}

/// What document 01's sweep marks, each type and each expression visited once.
#[cfg_attr(not(published), allow(dead_code))]
pub fn sweep(flat: &Flat, keep: bool) -> Marks {
    let mut marks = roots(flat, keep);
    for area in [CONSTANTS, OVERRIDES, GLOBALS] {
        for place in 0..flat.records(area) {
            if marks[area][place] {
                mark(flat, &mut marks, area, place as u32);
            }
        }
    }
    let deps = deps(flat);
    let mut left = flat.records(EXPRESSIONS);
    for ty in (0..flat.records(TYPES)).rev() {
        while left > 0 && Some(left as u32 - 1) > deps[ty] {
            left -= 1;
            visit(flat, &mut marks, EXPRESSIONS, left);
        }
        visit(flat, &mut marks, TYPES, ty);
    }
    for place in (0..left).rev() {
        visit(flat, &mut marks, EXPRESSIONS, place);
    }
    marks
}

/// Visiting a marked element marks what it refers to.
#[cfg_attr(not(published), allow(dead_code))]
fn visit(flat: &Flat, marks: &mut Marks, area: usize, place: usize) {
    if marks[area][place] {
        handles(flat, area, place, |to, handle| {
            mark(flat, marks, to, handle)
        });
    }
}

/// Marking a constant, override or global marks its type and init at once.
#[cfg_attr(not(published), allow(dead_code))]
fn mark(flat: &Flat, marks: &mut Marks, area: usize, handle: u32) {
    marks[area][handle as usize] = true;
    if let CONSTANTS | OVERRIDES | GLOBALS = area {
        handles(flat, area, handle as usize, |to, behind| {
            marks[to][behind as usize] = true;
        });
    }
}

/// What a pass that keeps the marked records answers and leaves.
pub fn after(flat: &Flat, marks: &Marks) -> After {
    let maps: [Vec<u32>; 5] = std::array::from_fn(|area| number(&marks[area]));
    let mut after = After {
        counts: [0; 7],
        areas: std::array::from_fn(|area| Vec::with_capacity(flat.areas[area].len())),
        maps,
    };
    for area in 0..5 {
        for place in (0..flat.records(area)).filter(|place| marks[area][*place]) {
            keep(flat, &mut after, area, place);
        }
    }
    for mention in flat.each(MENTIONS) {
        let new = after.maps[mention[0] as usize][mention[1] as usize];
        after.areas[MENTIONS].extend([mention[0], new]);
    }
    for area in 0..7 {
        after.counts[area] = (after.areas[area].len() / WIDTHS[area]) as u32;
        after.areas[area].resize(flat.areas[area].len(), N);
    }
    after
}

/// New numbers in the old order.
pub fn number(marks: &[bool]) -> Vec<u32> {
    let mut next = 0;
    let mut give = |kept: &bool| {
        next += u32::from(*kept);
        if *kept {
            next - 1
        } else {
            N
        }
    };
    marks.iter().map(&mut give).collect()
}

/// Appends the record, adjusted, and its run.
fn keep(flat: &Flat, after: &mut After, area: usize, place: usize) {
    let old = flat.record(area, place);
    let at = after.areas[area].len() + FIRST_SLOT[area];
    after.areas[area].extend_from_slice(old);
    for (number, slot) in slots(area, old).iter().enumerate() {
        let word = old[FIRST_SLOT[area] + number];
        after.areas[area][at + number] = match *slot {
            Slot::Need(to) => after.maps[to][word as usize],
            Slot::May(to) if word != N => after.maps[to][word as usize],
            Slot::Start => {
                let count = old[FIRST_SLOT[area] + number + 1];
                keep_run(flat, after, area, word as usize, count as usize)
            }
            Slot::May(_) | Slot::Form(_) | Slot::Count | Slot::Unused => word,
        };
    }
}

/// Appends a run, adjusted, and gives its new start.
fn keep_run(flat: &Flat, after: &mut After, area: usize, start: usize, count: usize) -> u32 {
    let pool = pool_of(area);
    let new = after.areas[pool].len() as u32;
    let map = &after.maps[area];
    let run = &flat.areas[pool][start..start + count];
    after.areas[pool].extend(run.iter().map(|item| map[*item as usize]));
    new
}
