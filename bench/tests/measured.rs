//! The measured modules keep what they say, and the plain version and the library agree on every word of them.

use bench::flat::{Answer, Module, BODIES, LIMITS, N, TAIL, TYPES, WIDTHS};
use bench::modules::{measured, types_alone, Measured, Sort};
use bench::{library, plain};

fn agree(made: &Measured, keep_unused: bool) {
    let (mut by_plain, mut by_library) = (made.module.clone(), made.module.clone());
    let (areas, maps) = by_plain.lend();
    assert_eq!(plain::check(&areas, &maps), Answer::default());
    let plain = plain::compact(areas, maps, keep_unused);
    let (areas, maps) = by_library.lend();
    assert_eq!(library::check(&areas, &maps), Answer::default());
    let library = library::compact(areas, maps, keep_unused);
    assert_eq!(plain, library);
    assert_eq!(plain.number, 0);
    let n = made.module.records(TYPES);
    assert_eq!(plain.kept, made.kept, "{keep_unused} {n}");
    assert!(by_plain == by_library);
    for arena in 0..BODIES.len() {
        let expected = carried(&made.module, &by_library.maps[arena], arena);
        assert!(tails(&by_library, arena) == expected, "{arena} {n}");
    }
}

/// The tails of an arena's records.
fn tails(module: &Module, arena: usize) -> Vec<[u32; TAIL]> {
    let records = module.areas[arena].chunks(WIDTHS[arena]);
    let tail = |record: &[u32]| *record.last_chunk().expect("a record has a tail");
    records.map(tail).collect()
}

/// An arena's tails as a pass is to leave them: each kept record's at its new place, N at the others.
fn carried(before: &Module, map: &[u32], arena: usize) -> Vec<[u32; TAIL]> {
    let old = tails(before, arena);
    let mut new = vec![[N; TAIL]; old.len()];
    for (tail, &place) in old.into_iter().zip(map) {
        if place != N {
            new[place as usize] = tail;
        }
    }
    new
}

/// Were two spans equal, a record could get another's unseen.
#[test]
fn no_two_spans_are_equal() {
    for made in [measured(Sort::Half, false, 512), types_alone(512)] {
        let tails = (0..BODIES.len()).flat_map(|arena| tails(&made.module, arena));
        let mut spans: Vec<_> = tails.map(|[start, length, _]| [start, length]).collect();
        let count = spans.len();
        spans.sort_unstable();
        spans.dedup();
        assert_eq!(spans.len(), count);
    }
}

#[test]
fn every_measured_module() {
    for n in [64, 72, 512, 4096, 16384, LIMITS[TYPES]] {
        for sort in [Sort::None, Sort::Half, Sort::All] {
            for keep_unused in [false, true] {
                agree(&measured(sort, keep_unused, n), keep_unused);
            }
        }
        agree(&types_alone(n), false);
        agree(&types_alone(n), true);
    }
}

#[test]
fn the_counts_in_figures() {
    for (n, half) in [(4096, 2048), (65536, 32768)] {
        let arenas = |sort, keep_unused| measured(sort, keep_unused, n as usize).kept[..5].to_vec();
        assert_eq!(arenas(Sort::None, false), [0; 5]);
        assert_eq!(arenas(Sort::None, true), [1, 0, 0, n, 0]);
        assert_eq!(arenas(Sort::Half, false), [half; 5]);
        assert_eq!(arenas(Sort::Half, true), [half, half, half, n, half]);
        assert_eq!(arenas(Sort::All, false), [n; 5]);
        assert_eq!(arenas(Sort::All, true), [n; 5]);
    }
}
