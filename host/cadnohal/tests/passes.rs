//! What an accepted pass writes.

mod common;

use cadnohal::kinds::{SPAN_LENGTH, SPAN_START};
use cadnohal::{Area, Compacted, KeepUnused, Maps, Module, Span, N};
use common::{long_maps, maps, module, place_with, words};

/// Sixteen `Literal` and, last, the expression under test, which is mentioned. Of types, constants
/// and overrides the first is named by nothing that is kept.
fn before(record: &str) -> Module {
    let mut module = module([
        "0 0 N N ~10  0 0 N N ~11",
        "0 0 0 ~12  0 1 1 ~13",
        "0 0 0 ~14  0 1 3 ~15",
        "",
        "",
        "",
        "",
        "4 16",
    ]);
    for tag in 100..116 {
        module.expressions.extend(words(&format!("0 9*N ~{tag}")));
    }
    module.expressions.extend(words(record));
    if record.starts_with("8 ") {
        module.components = vec![5, 1, 9, 1];
    }
    module
}

/// Each kind of module scope: its record before, and after a pass that drops all it doesn't name.
const ADJUSTED: [(&str, &str); 37] = [
    ("0 9*N ~30", "0 9*N ~30"),
    ("1 9*N ~30", "1 9*N ~30"),
    ("2 9*N ~30", "2 9*N ~30"),
    ("3 9*N ~30", "3 9*N ~30"),
    ("4 9*N ~30", "4 9*N ~30"),
    ("5 1 8*N ~30", "5 0 8*N ~30"),
    ("6 1 8*N ~30", "6 0 8*N ~30"),
    ("7 1 8*N ~30", "7 0 8*N ~30"),
    ("8 1 0 4 6*N ~30", "8 0 0 4 6*N ~30"),
    ("9 5 3 7*N ~30", "9 1 0 7*N ~30"),
    ("10 1 8*N ~30", "10 0 8*N ~30"),
    ("11 2 8*N ~30", "11 0 8*N ~30"),
    ("12 3 8*N ~30", "12 0 8*N ~30"),
    ("14 4 8*N ~30", "14 0 8*N ~30"),
    ("15 1 3 5 N N 0 N N N ~30", "15 0 1 2 N N 0 N N N ~30"),
    ("15 1 3 5 N 9 1 N N 7 ~30", "15 0 1 2 N 4 1 N N 3 ~30"),
    ("15 1 3 5 7 N 2 9 N N ~30", "15 0 1 2 3 N 2 4 N N ~30"),
    ("15 1 3 5 7 N 3 9 N N ~30", "15 0 1 2 3 N 3 4 N N ~30"),
    ("15 1 3 5 7 9 4 15 11 13 ~30", "15 0 1 2 3 4 4 7 5 6 ~30"),
    ("16 1 3 5 N 7 4*N ~30", "16 0 1 2 N 3 4*N ~30"),
    ("17 3 0 2 6*N ~30", "17 1 0 0 6*N ~30"),
    ("17 3 2 7*N ~30", "17 0 2 7*N ~30"),
    ("18 5 8*N ~30", "18 0 8*N ~30"),
    ("19 6 8*N ~30", "19 0 8*N ~30"),
    ("20 9 7 7*N ~30", "20 1 0 7*N ~30"),
    ("21 9 7 8 6*N ~30", "21 2 0 1 6*N ~30"),
    ("22 7 8*N ~30", "22 0 8*N ~30"),
    ("23 8 8*N ~30", "23 0 8*N ~30"),
    ("24 9 N 3 5 5*N ~30", "24 2 N 0 1 5*N ~30"),
    ("25 9 8*N ~30", "25 0 8*N ~30"),
    ("26 10 8*N ~30", "26 0 8*N ~30"),
    ("28 1 8*N ~30", "28 0 8*N ~30"),
    ("29 1 8*N ~30", "29 0 8*N ~30"),
    ("30 1 8*N ~30", "30 0 8*N ~30"),
    ("31 11 8*N ~30", "31 0 8*N ~30"),
    ("32 12 3 7*N ~30", "32 1 0 7*N ~30"),
    ("33 14 12 13 6*N ~30", "33 2 0 1 6*N ~30"),
];

#[test]
fn each_kind_is_adjusted() {
    for (record, adjusted) in ADJUSTED {
        let mut after = before(record);
        let Compacted { counts, maps } = after.compact(KeepUnused::No).expect("accepted");
        let kept: Vec<_> = (0..16)
            .filter(|&old| maps.expressions.words()[old] != N)
            .collect();
        let literals = kept
            .iter()
            .map(|tag| words(&format!("0 9*N ~{}", 100 + tag)));
        let expected = literals
            .chain([words(adjusted)])
            .collect::<Vec<_>>()
            .concat();
        let (kept, freed) = after.expressions.split_at(expected.len());
        assert_eq!(kept, expected, "{record}");
        assert!(freed.iter().all(|&word| word == N), "{record}");
        assert_eq!(after.mentions, [4, counts.expressions - 1], "{record}");
        if record.starts_with("8 ") {
            assert_eq!(after.components, [1, 0, 2, 0]);
        }
    }
}

#[test]
fn what_stands_behind_is_kept() {
    let mut after = before("5 1 8*N ~30");
    let Compacted { counts, maps } = after.compact(KeepUnused::No).expect("accepted");
    assert_eq!(counts.to_array(), [1, 1, 0, 0, 2, 0, 0]);
    assert_eq!(maps, common::maps(["N 0", "N 0", "N N", "", "N 0 14*N 1"]));
    after.truncate(&counts);
    let kept = [
        "0 0 N N ~11",
        "0 0 0 ~13",
        "",
        "",
        "0 9*N ~101  5 0 8*N ~30",
        "",
        "",
        "4 1",
    ];
    assert_eq!(after, module(kept));

    let mut after = before("6 1 8*N ~30");
    let Compacted { counts, maps } = after.compact(KeepUnused::No).expect("accepted");
    assert_eq!(counts.to_array(), [1, 0, 1, 0, 2, 0, 0]);
    assert_eq!(
        maps,
        common::maps(["N 0", "N N", "N 0", "", "3*N 0 12*N 1"])
    );
    after.truncate(&counts);
    let kept = [
        "0 0 N N ~11",
        "",
        "0 0 0 ~15",
        "",
        "0 9*N ~103  6 0 8*N ~30",
        "",
        "",
        "4 1",
    ];
    assert_eq!(after, module(kept));
}

#[test]
fn runs_move_in_both_pools() {
    let mut after = module([
        "0 0 N N ~1  3 0 0 1 ~2  0 0 N N ~3  3 0 1 2 ~4",
        "",
        "",
        "",
        "0 9*N ~5  0 9*N ~6  8 1 0 1 6*N ~7  8 3 1 2 6*N ~8",
        "0 2 2",
        "0 1 1",
        "4 3",
    ]);
    let mut lent = long_maps(&after);
    let counts = after
        .compact_into(KeepUnused::No, &mut lent)
        .expect("accepted");
    assert_eq!(counts.to_array(), [2, 0, 0, 0, 2, 2, 2]);
    assert_eq!(lent, maps(["N N 0 1 7", "7", "7", "7", "N 0 N 1 7"]));
    let kept = [
        "0 0 N N ~3  3 0 0 2 ~4  14*N",
        "",
        "",
        "",
        "0 9*N ~6  8 1 0 2 6*N ~8  26*N",
        "0 0 N",
        "0 0 N",
        "4 1",
    ];
    assert_eq!(after, module(kept));
}

#[test]
fn roots_of_both_modes() {
    // Of each area a record that is named, one that is mentioned, and one that is neither.
    let before = module([
        "0 1 N N ~0  0 0 N N ~1  0 0 N N ~2  0 2 N N ~3",
        "1 2 0 ~0  0 2 1 ~1  0 2 1 ~2  1 3 2 ~3",
        "1 2 N ~0  0 2 N ~1  0 2 3 ~2",
        "2 N ~0  2 4 ~1",
        "0 9*N ~0  0 9*N ~1  0 9*N ~2  0 9*N ~3  0 9*N ~4  0 9*N ~5  0 9*N ~6",
        "",
        "",
        "0 1  1 1  2 1  3 0  4 5",
    ]);
    let mut no = before.clone();
    let mut lent = long_maps(&no);
    let counts = no
        .compact_into(KeepUnused::No, &mut lent)
        .expect("accepted");
    assert_eq!(counts.to_array(), [2, 2, 1, 1, 3, 0, 0]);
    assert_eq!(
        lent,
        maps([
            "N 0 1 N 7",
            "0 1 N N 7",
            "N 0 N 7",
            "0 N 7",
            "0 1 N N N 2 N 7"
        ])
    );
    let kept = [
        "0 0 N N ~1  0 0 N N ~2  14*N",
        "1 1 0 ~0  0 1 1 ~1  12*N",
        "0 1 N ~1  12*N",
        "1 N ~0  5*N",
        "0 9*N ~0  0 9*N ~1  0 9*N ~5  52*N",
        "",
        "",
        "0 0  1 1  2 0  3 0  4 2",
    ];
    assert_eq!(no, module(kept));

    let mut yes = before;
    let mut lent = long_maps(&yes);
    let counts = yes
        .compact_into(KeepUnused::Yes, &mut lent)
        .expect("accepted");
    assert_eq!(counts.to_array(), [3, 2, 2, 2, 4, 0, 0]);
    assert_eq!(
        lent,
        maps([
            "0 1 2 N 7",
            "0 1 N N 7",
            "0 1 N 7",
            "0 1 7",
            "0 1 N N 2 3 N 7"
        ])
    );
    let kept = [
        "0 1 N N ~0  0 0 N N ~1  0 0 N N ~2  7*N",
        "1 2 0 ~0  0 2 1 ~1  12*N",
        "1 2 N ~0  0 2 N ~1  6*N",
        "2 N ~0  2 2 ~1",
        "0 9*N ~0  0 9*N ~1  0 9*N ~4  0 9*N ~5  39*N",
        "",
        "",
        "0 1  1 1  2 1  3 0  4 3",
    ];
    assert_eq!(yes, module(kept));
}

/// A module of which both modes drop something.
fn lossy() -> Module {
    module([
        "0 0 N N ~1  0 1 N N ~2  3 0 0 2 ~3  2 1 1 0 ~4",
        "1 1 1 ~5  0 1 0 ~6",
        "0 1 2 ~7  1 1 N ~8",
        "2 N ~9",
        "0 9*N ~10  0 9*N ~11  0 9*N ~12  8 2 0 2 6*N ~13  5 0 8*N ~14",
        "1 1",
        "1 2",
        "4 4",
    ])
}

#[test]
fn a_second_pass_changes_nothing() {
    for keep_unused in [KeepUnused::No, KeepUnused::Yes] {
        let mut once = lossy();
        let first = once.compact(keep_unused).expect("accepted");
        once.truncate(&first.counts);
        assert_ne!(once, lossy());
        let mut twice = once.clone();
        let second = twice.compact(keep_unused).expect("accepted");
        assert_eq!(twice, once);
        assert_eq!(second.counts, first.counts);
        for map in second.maps.words() {
            assert_eq!(map, (0..map.len() as u32).collect::<Vec<_>>());
        }
    }
}

#[test]
fn spans_and_tags_move_with_their_records() {
    let mut after = module([
        "0 0 N N ~1  0 0 N N ~2",
        "0 1 1 ~3  0 1 1 ~4",
        "0 1 N ~5  0 1 N ~6",
        "1 N ~7  1 N ~8",
        "0 9*N ~9  0 9*N ~10",
        "",
        "",
        "0 1  1 1  2 1  3 1  4 1",
    ]);
    let counts = after.compact(KeepUnused::No).expect("accepted").counts;
    assert_eq!(counts.to_array(), [1, 1, 1, 1, 1, 0, 0]);
    let kept = [
        "0 0 N N ~2  7*N",
        "0 0 0 ~4  6*N",
        "0 0 N ~6  6*N",
        "0 N ~8  5*N",
        "0 9*N ~10  13*N",
        "",
        "",
        "0 0  1 0  2 0  3 0  4 0",
    ];
    assert_eq!(after, module(kept));
}

/// `module` with this span in each record.
fn with_spans(mut module: Module, span: Span) -> Module {
    for area in Area::ALL.into_iter().take(5) {
        for record in module.area_mut(area).chunks_exact_mut(area.width()) {
            record[area.tail_at() + SPAN_START] = span.start;
            record[area.tail_at() + SPAN_LENGTH] = span.length;
        }
    }
    module
}

#[test]
fn spans_decide_nothing_and_stay() {
    let words = [0, 1, 3, 34, N - 1, N];
    for keep_unused in [KeepUnused::No, KeepUnused::Yes] {
        let mut plain = lossy();
        let answer = plain.compact(keep_unused).expect("accepted");
        plain.truncate(&answer.counts);
        for (start, length) in words
            .into_iter()
            .flat_map(|word| words.map(|other| (word, other)))
        {
            let span = Span { start, length };
            let mut after = with_spans(lossy(), span);
            assert_eq!(after.compact(keep_unused), Ok(answer.clone()));
            after.truncate(&answer.counts);
            assert_eq!(after, with_spans(plain.clone(), span));
        }
    }
}

#[test]
fn a_result_that_is_not_cut_is_refused() {
    let mut module = lossy();
    module.compact(KeepUnused::Yes).expect("accepted");
    let maps = Maps::for_module(&module);
    assert_eq!(place_with(&module, &maps), [4, 0, 3]);

    let mut globals = common::module(["0 0 N N ~0", "", "", "0 N ~1  0 N ~2", "", "", "", "0 0"]);
    globals.compact(KeepUnused::No).expect("accepted");
    assert_eq!(globals.globals, words("10*N"));
    let maps = Maps::for_module(&globals);
    assert_eq!(place_with(&globals, &maps), [6, 3, 0]);
}
