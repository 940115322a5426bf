//! The harness tested: it passes what is right, and it catches each sort of wrong answer.

use crate::command::Over;
use crate::compare::{entries, judge};
use crate::expect::expect_check;
use crate::flat::*;
use crate::generate::damaged::{damage, damage_twice, damage_with, FAULTS};
use crate::generate::good::{good, nearly, Size, LEAST_LARGE};
use crate::generate::large::{large, turn, Share, Turn, FIRST};
use crate::generate::small::Small;
use crate::generate::wild::wild;
use crate::generate::{spread, Foretold};
use crate::library::{Lent, Library, Restated};
use crate::mutants::{self, MUTANTS};
use crate::report::Stats;
use crate::rng::Rng;
use crate::run::{self, Plan};
use crate::shrink::shrink;
use crate::text::{parse, replayed, written, Case};
use crate::{closure, maps, replay};

/// The library that the tests are about: the linked one if there is one.
#[cfg(library)]
const RIGHT: &dyn Library = &crate::ffi::Linked;
#[cfg(not(library))]
const RIGHT: &dyn Library = &Restated;

/// Modules of every generator, with spans, and what is foretold of them.
fn modules(seed: u64, count: usize) -> Vec<(Flat, Foretold)> {
    let mut rng = Rng::new(seed);
    let mut list = Vec::new();
    while list.len() < count {
        list.push((good(&mut rng, Size::Tiny), Foretold::Accepted));
        list.push((good(&mut rng, Size::Small), Foretold::Accepted));
        list.push((nearly(&mut rng, Size::Tiny), Foretold::Nothing));
        list.push((wild(&mut rng), Foretold::Nothing));
        if let Some((flat, _, refusal)) = damage(&mut rng, |rng| good(rng, Size::Small)) {
            list.push((flat, Foretold::Refused(refusal)));
        }
        let base = good(&mut rng, Size::Small);
        if let Some((flat, refusal)) = damage_twice(base, &mut rng) {
            list.push((flat, Foretold::Refused(refusal)));
        }
    }
    let spread = |(flat, foretold)| (spread(flat, seed), foretold);
    list.into_iter().map(spread).collect()
}

/// What parted on the first module where something did.
fn first_difference(library: &dyn Library) -> Option<String> {
    let mut stats = Stats::default();
    let list = modules(5, 400);
    let judged = |(flat, foretold): &(Flat, Foretold)| {
        let difference = judge(library, flat, *foretold, 9, &mut stats).err()?;
        Some(difference.what)
    };
    list.iter().find_map(judged)
}

#[test]
fn right_answers_pass() {
    assert_eq!(first_difference(RIGHT), None);
    assert_eq!(first_difference(&Restated), None);
}

/// Each is caught in a run of its own, half of them on each of two threads.
#[test]
fn wrong_libraries_are_caught() {
    std::thread::scope(|scope| {
        for half in 0..2 {
            scope.spawn(move || {
                let mut passed = mutants::Passed::new();
                for mutant in MUTANTS.iter().skip(half).step_by(2) {
                    if let Err(why) = mutants::catch(RIGHT, mutant, &mut passed) {
                        panic!("{}: {why}", mutant.name);
                    }
                }
            });
        }
    });
}

#[test]
fn wrong_libraries_stand_in_the_readme() {
    let readme = include_str!("../README.md");
    for mutant in MUTANTS {
        let rows = readme.matches(&format!("\n| {} |", mutant.name)).count();
        assert_eq!(rows, 1, "{}", mutant.name);
    }
}

#[test]
fn a_run_ends_with_the_smallest_failing_module() {
    let plan = Plan {
        seconds: 60,
        blocks: u64::MAX,
        seed: 1,
        threads: 2,
    };
    let library = MUTANTS[0].over(RIGHT);
    let summary = run::run(&library, &plan);
    let failure = summary.failure.expect("it is caught");
    let text = run::failure_text(&library, &failure);
    let words: Vec<&str> = (text.lines())
        .filter_map(|line| line.strip_prefix("raw "))
        .flat_map(|line| line.split_whitespace().skip(1))
        .collect();
    // Any module at all gets a wrong count of constants.
    assert_eq!(words.len(), 0, "{text}");
    assert_eq!(text.matches("\nraw ").count(), 8);
    assert_eq!(text.matches("\nroom ").count(), 5);
}

/// Without the published Rust a run ends otherwise than with it, unless that was asked for.
#[test]
fn the_status_tells_what_was_compared() {
    for asked in [false, true] {
        for over in [Over::Files, Over::Crate, Over::Nothing] {
            assert_eq!(over.status(false, asked), 1);
        }
        assert_eq!(Over::Files.status(true, asked), 0);
        assert_eq!(Over::Crate.status(true, asked), 0);
    }
    assert_eq!(Over::Nothing.status(true, false), 3);
    assert_eq!(Over::Nothing.status(true, true), 0);
}

#[test]
fn a_failing_module_shrinks() {
    let mut rng = Rng::new(3);
    let large = good(&mut rng, Size::Medium);
    let has_sample = |flat: &Flat| {
        expect_check(flat).is_none()
            && flat
                .each(EXPRESSIONS)
                .any(|record| record[0] == IMAGE_SAMPLE)
    };
    assert!(has_sample(&large));
    let small = shrink(&large, has_sample);
    assert!(has_sample(&small));
    assert!(small.records(EXPRESSIONS) <= 2, "{small:?}");
    assert_eq!(small.words(), small.areas[EXPRESSIONS].len());
}

#[test]
fn every_sort_of_fault_is_made_and_foretold() {
    let mut rng = Rng::new(11);
    for fault in &FAULTS {
        let mut made = 0;
        for _ in 0..4000 {
            let base = good(&mut rng, Size::Small);
            if let Some((flat, refusal)) = damage_with(base, &mut rng, fault) {
                assert_eq!(expect_check(&flat), Some(refusal), "{}", fault.name);
                assert_eq!(refusal.number, fault.number);
                made += 1;
            }
            if made == 3 {
                break;
            }
        }
        assert_eq!(made, 3, "{}", fault.name);
    }
}

#[test]
fn a_seed_gives_the_same_modules() {
    assert_eq!(modules(21, 100), modules(21, 100));
    assert_ne!(modules(21, 100), modules(22, 100));
}

#[test]
fn small_modules_are_all_different() {
    let small = Small::new();
    let mut seen = std::collections::HashSet::new();
    for number in 0..20_000 {
        let flat = small.module(number).expect("there are more");
        let all = (small.shape(number), flat.areas);
        assert!(seen.insert(all), "{number}");
    }
}

/// Document 01's table, with the spans of Ask 9: words of a record, and bytes of all thirteen slices.
#[test]
fn the_records_are_the_papers() {
    assert_eq!(WIDTHS, [7, 6, 6, 5, 13, 1, 1, 2]);
    let words: usize = (0..8).map(|area| LIMITS[area] * WIDTHS[area]).sum();
    let maps: usize = LIMITS[..5].iter().sum();
    assert_eq!(4 * (words + maps), 13 << 20);
}

/// Document 01's table, with what Ask 6 raised.
#[test]
fn the_limits_are_the_papers() {
    let records = 65_536;
    let words = 262_144;
    let table = [
        records, records, records, records, records, words, words, records,
    ];
    assert_eq!(LIMITS, table);
}

#[test]
fn good_modules_reach_the_limits() {
    let mut rng = Rng::new(8);
    let mut longest = [0; 8];
    for _ in 0..5 {
        let flat = good(&mut rng, Size::Full);
        for (area, most) in longest.iter_mut().enumerate() {
            *most = flat.records(area).max(*most);
        }
    }
    assert_eq!(longest, LIMITS);
}

/// Sizes come from every doubling alike.
#[test]
fn sizes_are_of_every_order() {
    let mut rng = Rng::new(8);
    let mut seen = [0; 18];
    for _ in 0..2000 {
        seen[rng.sized(LEAST_LARGE, LIMITS[TYPES]).ilog2() as usize] += 1;
    }
    for (octave, times) in seen.into_iter().enumerate() {
        assert_eq!((6..16).contains(&octave), times > 100, "{octave}: {times}");
        assert!(times < 300, "{octave}: {times}");
    }
}

/// What the closure keeps of each area.
fn kept(flat: &Flat, keep: bool) -> [usize; 7] {
    let after = closure::after(flat, &closure::closure(flat, keep));
    after.counts.map(|count| count as usize)
}

/// What each of the first turns says of itself; and what comes after them is kept whole.
#[test]
fn large_modules_are_what_their_turns_say() {
    for (number, what) in (0..).zip(FIRST.into_iter().chain([Turn::Any])) {
        assert_eq!(turn(number), what);
        let list = large(&mut Rng::new(2), number);
        let limit = |flat: &Flat, area: usize| flat.records(area) == LIMITS[area];
        for (place, (flat, foretold)) in list.iter().enumerate() {
            let expected = expect_check(flat);
            match *foretold {
                Foretold::Refused(refusal) => assert_eq!(expected, Some(refusal)),
                _ => assert_eq!(expected, None),
            }
            match what {
                Turn::Past => assert_eq!(flat.records(place), LIMITS[place] + 1),
                Turn::Faults => {
                    let Refusal { area, record, .. } = expected.expect("it has a fault");
                    assert_eq!(record as usize, LIMITS[area as usize] - 1);
                }
                Turn::Deps => assert!(limit(flat, TYPES)),
                Turn::Live(share) => {
                    assert!((0..7).all(|area| limit(flat, area)));
                    let part = |most: usize| match share {
                        Share::None => 0,
                        Share::Half => most / 2,
                        Share::All => most,
                    };
                    assert_eq!(kept(flat, false)[..], LIMITS.map(part)[..7]);
                }
                Turn::Edge(MENTIONS) => assert!(limit(flat, MENTIONS)),
                Turn::Edge(area) => assert_eq!(kept(flat, false)[area], LIMITS[area]),
                Turn::Chains => {
                    let kept = kept(flat, false);
                    assert_eq!((kept[0], kept[4]), (LIMITS[0], LIMITS[4]));
                }
                Turn::Good | Turn::Any => {}
            }
        }
    }
}

#[test]
fn map_entries_of_case_7() {
    let map = [N, 0, N, 1, 2];
    let asked = [(0, 1), (0, 2), (1, 4), (2, 5), (5, 5), (0, 6), (3, 2)];
    let wanted = [
        [0, 0, 0],
        [0, 0, 1],
        [0, 0, 2],
        [0, 1, 3],
        [0, 0, 0],
        [8, N, N],
        [8, N, N],
    ];
    for ((start, end), wanted) in asked.into_iter().zip(wanted) {
        assert_eq!(maps::adjust_range(&map, start, end), wanted);
        assert_eq!(RIGHT.adjust_range(&map, start, end), wanted);
    }
    let mut stats = Stats::default();
    let mut rng = Rng::new(1);
    for _ in 0..200 {
        assert_eq!(entries(RIGHT, &map, &mut rng, &mut stats), Ok(()));
    }
}

/// Document 01's cases 1, 2, 4, 5, 6, 9, 10, 11 and 12, and the line that each must give.
const WORKED: &str = "
1 1 0 14 0 0 N N 0 0 10 2 1 0 0 0 0 11 0 6 0 0 1 0 0 0 0 26 0 9*N 0 0 20 0 9*N 0 0 21 0 0 0 2 0 1 0 2
2 0 0 14 0 0 N N 0 0 10 2 1 0 0 0 0 11 0 6 0 0 1 0 0 0 0 26 0 9*N 0 0 20 0 9*N 0 0 21 0 0 0 2 0 1 0 2
41 1 0 7 0 0 N N 0 0 0 6 0 0 0 0 0 0 0 0 13 5 0 8*N 0 0 0 0 0 0 1 1 0 0 1
42 1 0 7 0 0 N N 0 0 0 6 0 0 0 0 0 0 0 0 26 0 9*N 0 0 0 5 0 8*N 0 0 0 0 0 0 1 1 0 0 2
51 1 0 21 0 0 N N 0 0 0 2 0 0 0 0 0 0 0 0 N N 0 0 0 0 6 0 0 1 0 0 0 0 26 7 2 8*N 0 0 0 0 9*N 0 0 0 0 0 0 3 0 1 0 2
52 1 0 21 0 0 N N 0 0 0 2 0 0 0 0 0 0 0 0 N N 0 0 0 0 6 0 0 1 0 0 0 0 39 0 9*N 0 0 0 0 9*N 0 0 0 7 2 8*N 0 0 0 0 0 0 3 0 1 0 3
61 1 0 7 0 2 N N 0 0 0 6 1 0 0 0 0 0 0 0 13 0 9*N 0 0 0 0 0 0 1 1 0 0 1
62 1 0 7 0 0 N N 0 0 0 6 1 0 0 0 0 0 0 0 13 0 9*N 0 0 0 0 0 0 1 1 0 0 1
91 1 0 0 0 0 0 26 0 9*N 0 0 0 33 0 0 0 6*N 0 0 0 0 0 0 0 0 0 0 2
92 1 0 0 0 0 0 26 0 9*N 0 0 0 34 9*N 0 0 0 0 0 0 0 0 0 0 2
93 1 0 0 0 0 0 26 0 9*N 0 0 0 13 9*N 0 0 0 0 0 0 0 0 0 0 2
10 1 0 7 1 0 9 N 0 0 0 0 0 0 13 34 9*N 0 0 0 0 0 0 1 0 0 0 1
11 1 0 0 0 0 0 0 0 0 0 0 0 0 0 0
12 0 0 21 0 0 N N 0 0 1 0 0 N N 0 0 2 0 0 N N 0 0 3 0 0 0 0 0 0 4 0 1 0 1 3 0 0 0 0
";
const WORKED_LINES: &str = "\
1 0 0 0 2 0 1 0 1 0 0
2 0 0 0 0 0 0 0 0 0 0
41 7 4 0 0 0 0 0 0 0 0
42 0 0 0 0 0 0 0 0 0 0
51 7 4 0 0 0 0 0 0 0 0
52 0 0 0 0 0 0 0 0 0 0
61 0 0 0 0 0 0 0 0 0 0
62 0 0 0 1 1 0 0 1 0 0
91 0 0 0 0 0 0 0 0 0 0
92 4 4 1 0 0 0 0 0 0 0
93 5 4 1 0 0 0 0 0 0 0
10 4 4 0 0 0 0 0 0 0 0
11 0 0 0 0 0 0 0 0 0 0
12 0 0 0 1 0 0 0 0 0 0
";

/// The cases as they are, and with spans.
#[test]
fn worked_cases() {
    let cases = parse(WORKED).expect("they are cases");
    let spread = cases.iter().map(|case| Case {
        flat: spread(case.flat.clone(), u64::from(case.number)),
        ..case.clone()
    });
    for cases in [cases.clone(), spread.collect()] {
        for library in [RIGHT, &Restated] {
            let lines: String = cases.iter().map(|case| replayed(library, case)).collect();
            assert_eq!(lines, WORKED_LINES);
        }
    }
}

/// What case 1 leaves, with a span in each record.
#[test]
fn case_1_with_spans() {
    let asked = "1 1 1 14 0 0 N N 1 2 10 2 1 0 0 3 N 11 0 6 0 0 1 5 0 0 0 26 0 9*N 7 8 20 0 9*N 9 4 21 0 0 0 2 0 1 0 2";
    let wanted = "1 0 0 0 2 0 1 0 1 0 0
types 0 0 N N 1 2 10 2 1 0 0 3 N 11
constants
overrides 0 0 0 5 0 0
globals
expressions 0 N N N N N N N N N 9 4 21 N N N N N N N N N N N N N
members
components
mentions
type_map 0 1
constant_map
override_map 0
global_map
expression_map N 0
";
    let cases = parse(asked).expect("it is a case");
    for library in [RIGHT, &Restated] {
        assert_eq!(replayed(library, &cases[0]), wanted);
    }
}

/// A pass that leaves one word of one span otherwise is caught, in each arena; and of a dropped record's too.
#[test]
fn a_wrong_word_of_a_span_is_caught() {
    for area in 0..5 {
        for word in [START, LENGTH] {
            for kept in [true, false] {
                let library = WrongSpan { area, word, kept };
                let caught = first_difference(&library);
                let told = caught
                    .as_ref()
                    .is_some_and(|what| what.contains(AREAS[area]));
                assert!(told, "{} {word} {kept}: {caught:?}", AREAS[area]);
            }
        }
    }
}

/// The right library, but for one word of the last span of an arena that is kept, or is not.
struct WrongSpan {
    area: usize,
    word: usize,
    kept: bool,
}

impl Library for WrongSpan {
    fn compact(&self, lent: &mut Lent, keep: bool) -> Answer {
        let answer = RIGHT.compact(lent, keep);
        let area = self.area;
        let records = lent.areas[area].get().len() / WIDTHS[area];
        let kept = answer.counts[area] as usize;
        let end = if self.kept { kept } else { records };
        if answer.number == 0 && end > if self.kept { 0 } else { kept } {
            let at = (end - 1) * WIDTHS[area] + BODIES[area] + self.word;
            lent.areas[area].get_mut()[at] ^= 1;
        }
        answer
    }

    fn check(&self, lent: &Lent) -> Answer {
        RIGHT.check(lent)
    }

    fn lookup(&self, map: &[u32], handle: u32) -> u32 {
        RIGHT.lookup(map, handle)
    }

    fn adjust(&self, map: &[u32], handle: u32) -> [u32; 2] {
        RIGHT.adjust(map, handle)
    }

    fn adjust_range(&self, map: &[u32], start: u32, end: u32) -> [u32; 3] {
        RIGHT.adjust_range(map, start, end)
    }
}

/// Start and length of each record.
fn spans(flat: &Flat) -> Vec<[u32; 2]> {
    let each = |area| {
        let tails = flat.each(area).map(move |record| tail(area, record));
        tails.map(|[start, length, _]| [start, length])
    };
    (0..5).flat_map(each).collect()
}

/// In every module no record has the span of the one before it, and all sorts of words are there.
#[test]
fn spans_differ_from_record_to_record() {
    let mut seen = std::collections::BTreeSet::new();
    for (flat, _) in modules(13, 200) {
        let spans = spans(&flat);
        assert!(spans.windows(2).all(|pair| pair[0] != pair[1]), "{flat:?}");
        seen.extend(spans);
    }
    for odd in [[0, 0], [N, N]] {
        assert!(seen.contains(&odd));
    }
    let has = |fits: fn(&[u32; 2]) -> bool| seen.iter().any(fits);
    assert!(has(|[start, length]| *start == 0 && *length > 0));
    assert!(has(|[start, length]| *start == N && *length < N));
    assert!(has(|[start, length]| *start < N && *length == N));
    assert!(has(|[start, length]| *start > 0 && *length == 0));
}

#[test]
fn cases_are_read_as_they_are_written() {
    for (number, (flat, _)) in modules(4, 60).into_iter().enumerate() {
        let case = Case {
            number: number as u32,
            keep: number % 2 == 0,
            show: number % 3 == 0,
            flat,
        };
        assert_eq!(parse(&written(&case)), Ok(vec![case]));
    }
}

#[test]
fn recorded_answers_hold() {
    for file in replay::recorded_files().expect("they are here") {
        let text = std::fs::read_to_string(&file).expect("it can be read");
        assert!(text.len() < 8192);
        for case in parse(&text).expect("they are cases") {
            assert!(case.fits());
            let spans = spans(&case.flat);
            let own: std::collections::BTreeSet<_> = spans.iter().collect();
            assert_eq!(own.len(), spans.len(), "case {}", case.number);
        }
        for library in [RIGHT, &Restated] {
            let (_, difference) = replay::replay(library, &file).expect("it can be read");
            assert_eq!(difference, None, "{}", file.display());
        }
    }
}

#[test]
fn no_recorded_answers_are_an_error() {
    let folder = std::env::temp_dir().join(format!("harness-empty-{}", std::process::id()));
    assert!(replay::files_in(&folder).is_err());
    std::fs::create_dir(&folder).expect("it can be made");
    assert!(replay::files_in(&folder).is_err());
    let file = folder.join("answers-1.stdin");
    for end in ["stdin", "stdout"] {
        std::fs::write(file.with_extension(end), "# nothing\n").expect("it can be written");
    }
    assert!(replay::files_in(&folder).is_ok());
    assert!(replay::replay(RIGHT, &file).is_err());
    std::fs::remove_file(&file).expect("it can be taken away");
    assert!(replay::files_in(&folder).is_err());
    std::fs::remove_dir_all(folder).expect("it can be taken away");
}

/// The recorded files are what the published Rust answers now.
#[cfg(files)]
#[test]
fn recorded_answers_are_the_published_ones() {
    let folder = std::env::temp_dir().join(format!("harness-recorded-{}", std::process::id()));
    let (cases, files) = crate::record::record(1, &folder).expect("they can be written");
    assert!(cases >= 300);
    let recorded = replay::recorded_files().expect("they are here");
    assert_eq!(recorded.len(), files);
    for file in recorded {
        let name = file.file_name().expect("it has a name");
        for end in ["stdin", "stdout"] {
            let one = std::fs::read(file.with_extension(end)).expect("it is recorded");
            let other = std::fs::read(folder.join(name).with_extension(end)).expect("it is new");
            assert!(one == other, "{} differs", file.display());
        }
    }
    std::fs::remove_dir_all(folder).expect("it can be taken away");
}

/// The recorded answers are the crate's, for accepted modules with the flags that it gives.
#[cfg(feature = "crate")]
#[test]
fn recorded_answers_are_the_crates() {
    let mut compared = 0;
    for file in replay::recorded_files().expect("they are there") {
        let text = std::fs::read_to_string(&file).expect("it can be read");
        for case in parse(&text).expect("they are cases") {
            let refused = expect_check(&case.flat).is_some();
            if refused || *crate::types::found_flags(&case.flat, 1) != case.flat {
                continue;
            }
            let by_crate = crate::record::accepted(&case, None, &mut Rng::new(1));
            assert_eq!(by_crate.map(|pair| pair.1), Ok(replayed(RIGHT, &case)));
            compared += 1;
        }
    }
    assert!(compared >= 150, "{compared}");
}

/// Types of each sort over abstract ones are made, and the crate says which of them are abstract.
#[cfg(feature = "crate")]
#[test]
fn the_crate_finds_out_what_is_abstract() {
    use naga::{Handle, Type, TypeInner};
    let mut rng = Rng::new(6);
    let mut seen = std::collections::BTreeSet::new();
    for _ in 0..400 {
        let flat = good(&mut rng, Size::Small);
        let flat = crate::types::found_flags(&flat, rng.next());
        let types = crate::types::arena(&flat, None, &mut rng);
        let flagged = |ty: Handle<Type>| flat.record(TYPES, ty.index())[1] & ABSTRACT != 0;
        for (at, ty) in types.iter() {
            let (sort, over_abstract) = match &ty.inner {
                TypeInner::Scalar(scalar) => ("scalar", scalar.is_abstract()),
                TypeInner::Vector { scalar, .. } => ("vector", scalar.is_abstract()),
                TypeInner::Matrix { scalar, .. } => ("matrix", scalar.is_abstract()),
                TypeInner::Atomic(scalar) => ("atomic", scalar.is_abstract()),
                TypeInner::Array { base, .. } => ("array", flagged(*base)),
                TypeInner::Pointer { base, .. } => ("pointer", flagged(*base)),
                TypeInner::BindingArray { base, .. } => ("binding array", flagged(*base)),
                TypeInner::Struct { members, .. } => {
                    ("struct", members.iter().any(|member| flagged(member.ty)))
                }
                _ => ("other", false),
            };
            seen.insert((over_abstract, flagged(at), sort));
        }
    }
    let kept = ["array", "atomic", "matrix", "scalar", "vector"];
    let lost = ["binding array", "pointer", "struct"];
    let rows = |is_abstract: bool| {
        let rows = seen.iter().filter(|row| row.0 && row.1 == is_abstract);
        rows.map(|row| row.2).collect::<Vec<_>>()
    };
    assert_eq!(rows(true), kept);
    assert_eq!(rows(false), lost);
    assert!(!seen.iter().any(|row| !row.0 && row.1));
}

/// With all mentions on types there are more than can be told apart; the others take another road.
#[cfg(published)]
#[test]
fn there_are_predeclared_types_for_all_mentions() {
    use crate::{roads, rust};
    let mut flat = Flat::default();
    flat.push_with(TYPES, &[0, 0, N, N], [0; 3]);
    for _ in 0..LIMITS[MENTIONS] {
        flat.push(MENTIONS, &[TYPES as u32, 0]);
    }
    flat.fit_rooms();
    let chosen = roads::choose(&flat, &mut Rng::new(1));
    let all = chosen
        .iter()
        .filter(|road| **road == roads::Road::Predeclared);
    assert_eq!(all.count(), roads::PREDECLARED);
    let outcome = rust::run(&flat, false, &chosen, 1);
    assert!(matches!(outcome, rust::Outcome::Through(..)));
}

/// What is read of a module after a pass does not hang on its spans but for the spans themselves.
#[cfg(published)]
#[test]
fn spans_do_not_tell_which_record_is_which() {
    use crate::{convert, roads};
    use naga::compact::{compact, KeepUnused};
    for seed in 0..40 {
        let flat = spread(good(&mut Rng::new(seed), Size::Small), seed);
        let flat = crate::types::found_flags(&flat, seed);
        let chosen = roads::choose(&flat, &mut Rng::new(seed));
        let mut built = convert::build(&flat, true, &chosen, &mut Rng::new(seed));
        compact(&mut built.module, KeepUnused::Yes);
        let after = convert::read(&flat, &built).expect("it makes sense");
        take_spans(&mut built.module);
        let bare = convert::read(&flat, &built).expect("it makes sense");
        let mut wanted = after.clone();
        for area in 0..5 {
            let kept = after.counts[area] as usize;
            let records = wanted.areas[area].chunks_exact_mut(WIDTHS[area]);
            for record in records.take(kept) {
                record[BODIES[area]..BODIES[area] + TAG].fill(0);
            }
        }
        assert_eq!(bare, wanted);
    }
}

/// Takes the span of each element of the arenas away.
#[cfg(published)]
fn take_spans(module: &mut naga::Module) {
    use naga::{Arena, Span, UniqueArena};
    fn bare<T>(arena: &mut Arena<T>) {
        let mut other = Arena::new();
        for (_, item, _) in arena.drain() {
            other.append(item, Span::default());
        }
        *arena = other;
    }
    let mut types = UniqueArena::new();
    for (_, ty) in module.types.iter() {
        types.insert(ty.clone(), Span::default());
    }
    module.types = types;
    bare(&mut module.constants);
    bare(&mut module.overrides);
    bare(&mut module.global_variables);
    bare(&mut module.global_expressions);
}

/// What `docs/DIFFERENCES.md` says of the Rust and no flat module can ask.
#[cfg(published)]
mod beside_flat_modules {
    use crate::flat::N;
    use crate::handles::{global, handle, word};
    use crate::roads::bare_entry;
    use crate::rust::caught;
    use naga::compact::{compact, KeepUnused};
    use naga::{
        Expression, Function, Module, Range, Scalar, ShaderStage, Span, Statement, Type, TypeInner,
    };

    #[test]
    fn a_task_stage_keeps_the_first_u32() {
        for (stage, kept) in [
            (ShaderStage::Task, 1),
            (ShaderStage::Mesh, 1),
            (ShaderStage::Compute, 0),
        ] {
            let mut module = Module::default();
            for name in ["a", "b"] {
                let ty = Type {
                    name: Some(String::from(name)),
                    inner: TypeInner::Scalar(Scalar::U32),
                };
                module.types.insert(ty, Span::default());
            }
            module.entry_points.push(bare_entry(stage));
            compact(&mut module, KeepUnused::No);
            let names: Vec<_> = module.types.iter().map(|(_, ty)| &ty.name).collect();
            assert_eq!(names.len(), kept);
            assert!(names.iter().all(|name| name.as_deref() == Some("a")));
        }
    }

    /// Of equal types the arena has one, with the first span, and a pass carries it.
    #[test]
    fn equal_types_have_the_first_span() {
        let mut module = Module::default();
        for end in [7, 8] {
            let ty = Type {
                name: Some(String::from("a")),
                inner: TypeInner::Scalar(Scalar::U32),
            };
            module.types.insert(ty, Span::new(5, end));
        }
        for _ in 0..2 {
            let spans = module.types.iter().map(|(at, _)| module.types.get_span(at));
            assert_eq!(spans.collect::<Vec<_>>(), [Span::new(5, 7)]);
            compact(&mut module, KeepUnused::Yes);
        }
    }

    /// What document 01 calls a reversed range is to the Rust an empty one.
    #[test]
    fn a_reversed_range_becomes_empty() {
        let mut entry = bare_entry(ShaderStage::Compute);
        for _ in 0..4 {
            crate::uses::append(&mut entry.function, Expression::SubgroupBallotResult, N);
        }
        let value = Some(handle(2));
        let body = &mut entry.function.body;
        let range = Range::new_from_bounds(handle(3), handle(1));
        body.push(Statement::Emit(range), Span::default());
        body.push(Statement::Return { value }, Span::default());
        let mut module = Module::default();
        module.entry_points.push(entry);
        compact(&mut module, KeepUnused::No);
        let function = &module.entry_points[0].function;
        assert_eq!(function.expressions.len(), 1);
        let Some(Statement::Emit(range)) = function.body.first() else {
            panic!("the Emit is gone");
        };
        assert_eq!(range.index_range(), 0..0);
    }

    /// The entry point's field is neither followed nor rewritten: the host's mention must do both.
    #[test]
    fn an_incoming_ray_payload_is_left_alone() {
        let mut module = Module::default();
        for name in ["dropped", "payload"] {
            let ty = Type {
                name: Some(String::from(name)),
                inner: TypeInner::Scalar(Scalar::U32),
            };
            let ty = word(module.types.insert(ty, Span::default()));
            let global = global(Some(String::from(name)), ty, None);
            module.global_variables.append(global, Span::default());
        }
        let mut entry = bare_entry(ShaderStage::ClosestHit);
        entry.incoming_ray_payload = Some(handle(1));
        module.entry_points.push(entry);
        let mut used = module.clone();
        compact(&mut module, KeepUnused::No);
        assert_eq!((module.types.len(), module.global_variables.len()), (0, 0));
        assert_eq!(module.entry_points[0].incoming_ray_payload, Some(handle(1)));
        used.entry_points[0].task_payload = Some(handle(1));
        compact(&mut used, KeepUnused::No);
        assert_eq!(used.global_variables.len(), 1);
        assert_eq!(used.entry_points[0].task_payload, Some(handle(0)));
        assert_eq!(used.entry_points[0].incoming_ray_payload, Some(handle(1)));
    }

    #[test]
    fn a_call_result_of_a_dropped_function_panics() {
        for (mode, panics) in [(KeepUnused::No, true), (KeepUnused::Yes, false)] {
            let mut module = Module::default();
            let function = module
                .functions
                .append(Function::default(), Span::default());
            let result = Expression::CallResult(function);
            let result = module.global_expressions.append(result, Span::default());
            let mut entry = bare_entry(ShaderStage::Compute);
            entry.workgroup_size_overrides = Some([Some(result), None, None]);
            module.entry_points.push(entry);
            assert_eq!(caught(|| compact(&mut module, mode)).is_err(), panics);
        }
    }
}

/// The comparison on shaders passes the right library and catches wrong answers.
#[cfg(feature = "crate")]
mod over_shaders {
    use super::RIGHT;
    use crate::mutants::MUTANTS;
    use crate::shaders::shaders;
    use std::path::PathBuf;

    #[test]
    fn the_right_library_passes() {
        assert_eq!(shaders(RIGHT, &[]), Ok(true));
    }

    /// Wrong libraries whose fault shows on the shaders.
    const SHOWN: [&str; 29] = [
        "counts one constant too many",
        "counts no components",
        "names a record though it accepts",
        "tag of a type whose handles change",
        "tag of the last expression",
        "start of a type's span is 0",
        "span of a constant is N",
        "exchanges start and length of an override",
        "a global has the next one's span",
        "spans of the expressions stay where they were",
        "length of an expression's span becomes its end",
        "spans of dropped globals stay with No",
        "base of a pointer stays",
        "override of an array stays",
        "start of a struct's run stays",
        "type of a Compose stays",
        "first member stays",
        "exchanges the last two components",
        "init of a constant stays",
        "loses the init of a global",
        "the first dropped override's place is not freed",
        "writes past the types",
        "a dropped type's word in its map is 0",
        "map of the overrides stays",
        "a mention of a global stays",
        "takes Yes for No",
        "takes No for Yes",
        "does not follow the init of an override",
        "adjust of a dropped handle is 8",
    ];

    #[test]
    fn wrong_libraries_are_caught() {
        for name in SHOWN {
            let mutant = MUTANTS.iter().find(|mutant| mutant.name == name).unwrap();
            assert_eq!(shaders(&mutant.over(RIGHT), &[]), Ok(false), "{name}");
        }
    }

    #[test]
    fn a_folder_without_shaders_is_no_success() {
        let sources = PathBuf::from(concat!(env!("HARNESS"), "/src"));
        assert_eq!(shaders(RIGHT, &[sources]), Ok(false));
    }
}
