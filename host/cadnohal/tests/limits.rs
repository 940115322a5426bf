//! Each area at its limit and past it, every lent word compared. Number 2 is run here, by
//! host/tests/limits.c, by host/cli/tests and by the harness: the programs `cases` and `verdicts` have
//! 64 KiB of buffers at most, and an area past its limit is larger.

mod common;

use cadnohal::{Area, Compacted, KeepUnused, Maps, Module, N};
use common::{maps, module, place, place_with, tail, words};

/// A module of this many records in `area`, each good, and what they rest on: only their number can
/// be refused.
fn counted(area: Area, count: usize) -> Module {
    let record = match area {
        Area::Types => "0 0 N N ~0",
        Area::Constants => "1 0 0 ~0",
        Area::Overrides => "1 0 N ~0",
        Area::Globals => "0 N ~0",
        Area::Expressions => "0 9*N ~0",
        Area::Members | Area::Components => "0",
        Area::Mentions => "0 0",
    };
    let mut module = module(["0 0 N N ~0", "", "", "", "0 9*N ~0", "", "", ""]);
    *module.area_mut(area) = words(record).repeat(count);
    match area {
        Area::Members => module.types.extend(words(&format!("3 1 0 {count} ~0"))),
        Area::Components => {
            let compose = format!("8 0 0 {count} 6*N ~0");
            module.expressions.extend(words(&compose));
        }
        _ => {}
    }
    module
}

#[test]
fn number_2_at_each_area_one_past_its_limit() {
    for area in Area::ALL {
        let limit = area.limit();
        for count in [limit - 1, limit] {
            assert_eq!(place(&counted(area, count)), [0, 0, 0], "{area} {count}");
        }
        for count in [limit + 1, limit + 2, 2 * limit, 4 * limit] {
            let code = area.code();
            assert_eq!(place(&counted(area, count)), [2, code, 0], "{area} {count}");
        }
    }
}

#[test]
fn number_2_whatever_the_records() {
    for area in Area::ALL {
        for word in [0, 1, N] {
            let mut module = Module::new();
            append(&mut module, 4, 1);
            let length = (area.limit() + 1) * area.width();
            module.area_mut(area).resize(length, word);
            let maps = maps([""; 5]);
            assert_eq!(place_with(&module, &maps), [2, area.code(), 0]);
            // The next number would be tried with as many records as there may be.
            module.area_mut(area).truncate(length - area.width());
            assert_eq!(place_with(&module, &maps), [3, 0, 0]);
        }
    }
}

#[test]
fn number_2_at_the_first_area() {
    let mut module = Module::new();
    append(&mut module, 4, 1);
    for area in Area::ALL.into_iter().rev() {
        let length = (area.limit() + 1) * area.width();
        module.area_mut(area).resize(length, 0);
        assert_eq!(place(&module), [2, area.code(), 0]);
    }
}

#[test]
fn number_1_comes_before_number_2() {
    for area in Area::ALL {
        for count in [area.limit() - 1, area.limit(), area.limit() + 1] {
            for extra in 1..area.width() {
                let mut module = counted(area, count);
                module.area_mut(area).extend(vec![0; extra]);
                assert_eq!(place(&module), [1, area.code(), 0], "{area} {count}");
            }
        }
    }
    // At a later area, too.
    let mut module = counted(Area::Types, Area::Types.limit() + 1);
    module.mentions.push(0);
    assert_eq!(place(&module), [1, 7, 0]);
}

/// Appends `count` records to each arena and four times as many words to each pool. They refer to
/// one another only, and each is unnamed or each is named. Of types and expressions every other has
/// a run of eight older ones; the types between are sized by overrides whose inits rise with them.
/// Named ones have other tags than unnamed ones, and every record's span is its own.
fn append(module: &mut Module, count: u32, named: u32) {
    let at = module.count(Area::Types) as u32;
    for place in 0..count {
        let me = at + place;
        let run = (0..8).map(|k| at + (place * 7 + k * 13) % place);
        let (ty, init, expression) = match (place, place % 4) {
            (0, _) => ([0, named, N, N], N, [0, N, N, N]),
            (_, 1 | 3) => {
                let (members, components) = (module.members.len(), module.components.len());
                module.members.extend(run.clone());
                module.components.extend(run);
                let ty = [3, named, members as u32, 8];
                (ty, me, [8, me, components as u32, 8])
            }
            (_, 2) => ([2, named, me - 1, me], me - 1, [5, me - 1, N, N]),
            _ => ([2, named, me - 1, me], me - 1, [6, me, N, N]),
        };
        module.types.extend(ty);
        module.constants.extend([named, me, me]);
        module.overrides.extend([named, at, init]);
        module.globals.extend([me, me]);
        module.expressions.extend(expression);
        module.expressions.extend([N, N, N, N, N, N]);
        for area in Area::ALL.into_iter().take(5) {
            module.area_mut(area).extend(tail(place + MOST * named));
        }
    }
}

/// How many records an arena may have.
const MOST: u32 = Area::Types.limit() as u32;

/// Mentions of this many elements of an area from the first.
fn mentions(area: Area, first: u32, count: u32) -> Vec<u32> {
    let mentions = (first..first + count).map(|handle| [area.code(), handle]);
    mentions.flatten().collect()
}

/// The counts and the maps of a pass over a module of which all areas are at their limits.
fn compact_full(module: &mut Module, keep_unused: KeepUnused) -> ([u32; 7], Maps) {
    for area in Area::ALL {
        assert_eq!(module.count(area), area.limit(), "{area}");
    }
    let Compacted { counts, maps } = module.compact(keep_unused).expect("accepted");
    (counts.to_array(), maps)
}

/// `module` with N after each of areas 0 to 6, up to the lengths of `before`.
fn padded(mut module: Module, before: &Module) -> Module {
    for area in Area::ALL {
        module.area_mut(area).resize(before.area(area).len(), N);
    }
    module
}

#[test]
fn every_area_at_its_limit_and_all_kept() {
    let mut full = Module::new();
    append(&mut full, MOST, 1);
    full.mentions = mentions(Area::Expressions, 0, MOST);
    let mut after = full.clone();
    let (counts, maps) = compact_full(&mut after, KeepUnused::Yes);
    assert_eq!(counts, [MOST, MOST, MOST, MOST, MOST, 4 * MOST, 4 * MOST]);
    let places: Vec<u32> = (0..MOST).collect();
    assert!(maps.words().iter().all(|&map| map == places));
    assert!(after == full);
}

#[test]
fn every_area_at_its_limit_and_half_kept() {
    let half = MOST / 2;
    let mut full = Module::new();
    append(&mut full, half, 0);
    append(&mut full, half, 1);
    full.mentions = mentions(Area::Globals, half, half);
    full.mentions.extend(mentions(Area::Overrides, half, half));
    let mut after = full.clone();
    let (counts, maps) = compact_full(&mut after, KeepUnused::No);
    assert_eq!(counts, [half, half, half, half, half, 4 * half, 4 * half]);
    let moved = [vec![N; half as usize], (0..half).collect()].concat();
    assert!(maps.words().iter().all(|&map| map == moved));
    let mut kept = Module::new();
    append(&mut kept, half, 1);
    kept.mentions = mentions(Area::Globals, 0, half);
    kept.mentions.extend(mentions(Area::Overrides, 0, half));
    assert!(after == padded(kept, &full));
}

#[test]
fn every_area_at_its_limit_and_one_type_kept() {
    let mut full = Module::new();
    append(&mut full, MOST, 0);
    full.mentions = words("0 0").repeat(MOST as usize);
    let mut after = full.clone();
    let (counts, maps) = compact_full(&mut after, KeepUnused::No);
    assert_eq!(counts, [1, 0, 0, 0, 0, 0, 0]);
    let dropped = vec![N; MOST as usize];
    assert!(maps.types.words() == [&[0], &dropped[1..]].concat());
    assert!(maps.words()[1..].iter().all(|&map| map == dropped));
    let kept = Module {
        types: words("0 0 N N ~0"),
        mentions: full.mentions.clone(),
        ..Module::new()
    };
    assert!(after == padded(kept, &full));
}

#[test]
fn every_area_but_the_mentions_at_its_limit_and_nothing_kept() {
    let mut full = Module::new();
    append(&mut full, MOST, 0);
    let mut after = full.clone();
    let Compacted { counts, maps } = after.compact(KeepUnused::No).expect("accepted");
    assert_eq!(counts.to_array(), [0; 7]);
    let dropped = vec![N; MOST as usize];
    assert!(maps.words().iter().all(|&map| map == dropped));
    assert!(after == padded(Module::new(), &full));
}

/// The header's promise of the stack, at the limits of every arena; host/tests/limits.c measures it.
#[test]
fn a_full_module_fits_on_a_small_stack() {
    let mut full = Module::new();
    append(&mut full, MOST, 1);
    let small = std::thread::Builder::new().stack_size(64 * 1024);
    let pass = small.spawn(move || full.compact(KeepUnused::Yes).map(|c| c.counts.expressions));
    let kept = pass.unwrap().join().unwrap();
    assert_eq!(kept, Ok(MOST));
}
