//! Holds the library's answers on one module against what is expected, for both flags.

use crate::closure;
use crate::expect::expect_check;
use crate::flat::*;
use crate::generate::Foretold;
use crate::library::{Lent, Library};
use crate::maps;
use crate::report::{Counted, Stats};
use crate::rng::Rng;
use crate::text::shown;
#[cfg(published)]
use crate::{convert, roads, rust, types};
#[cfg(published)]
use std::borrow::Cow;

/// Where two parted.
#[derive(Clone, Debug)]
pub struct Difference {
    pub keep: Option<bool>,
    pub what: String,
}

type Verdict = Result<(), String>;

/// All checks on one module. `seed` decides roads, junk in the maps and which map entries are asked.
pub fn judge(
    library: &dyn Library,
    flat: &Flat,
    foretold: Foretold,
    seed: u64,
    stats: &mut Stats,
) -> Result<Option<Refusal>, Difference> {
    let expected = expect_check(flat);
    #[cfg(published)]
    let flat = &*as_held(flat, expected, seed);
    let without_flag = |what| Difference { keep: None, what };
    self_check(foretold, expected).map_err(without_flag)?;
    check_answer(library, flat, expected, seed).map_err(without_flag)?;
    for keep in [false, true] {
        let with_flag = |what| Difference {
            keep: Some(keep),
            what,
        };
        match expected {
            Some(refusal) => {
                refused(library, flat, refusal, keep, seed).map_err(with_flag)?;
                stats.passes[usize::from(keep)].0[1] += 1;
                #[cfg(published)]
                tabulate(flat, refusal, keep, seed, stats);
            }
            None => {
                accepted(library, flat, keep, seed, stats).map_err(with_flag)?;
                stats.passes[usize::from(keep)].0[0] += 1;
            }
        }
    }
    Ok(expected)
}

/// The module as the published Rust would hold it: with the abstract flags that it finds out itself.
#[cfg(published)]
pub fn as_held(flat: &Flat, expected: Option<Refusal>, seed: u64) -> Cow<'_, Flat> {
    let shaped = expected.is_none_or(|refusal| refusal.number >= 5);
    if shaped && convert::holdable(flat) {
        types::found_flags(flat, seed)
    } else {
        Cow::Borrowed(flat)
    }
}

/// What the generator foretold is what the restated check finds.
fn self_check(foretold: Foretold, expected: Option<Refusal>) -> Verdict {
    let agree = match foretold {
        Foretold::Nothing => true,
        Foretold::Accepted => expected.is_none(),
        Foretold::Refused(refusal) => expected == Some(refusal),
    };
    if agree {
        return Ok(());
    }
    Err(format!(
        "the harness parts with itself: the generator foretold {foretold:?}, the restated check finds {expected:?}"
    ))
}

/// The word that stands at a place of every map before a pass.
fn junk(seed: u64, place: usize) -> u32 {
    (seed as u32).wrapping_add((place as u32).wrapping_mul(0x9e37_79b9))
}

/// The module with junk in its maps.
fn lend(flat: &Flat, seed: u64) -> Lent {
    Lent::new(flat, |place| junk(seed, place))
}

/// `check` answers the refusal and changes nothing.
fn check_answer(
    library: &dyn Library,
    flat: &Flat,
    expected: Option<Refusal>,
    seed: u64,
) -> Verdict {
    let lent = lend(flat, seed);
    let answer = library.check(&lent);
    let wanted = expected.map_or(Answer::default(), Refusal::answer);
    same_answer("check", answer, wanted)?;
    unchanged("check", &lent, flat, seed)
}

fn same_answer(who: &str, answer: Answer, wanted: Answer) -> Verdict {
    if answer == wanted {
        return Ok(());
    }
    let line = |answer: Answer| {
        let counts = answer.counts.map(|count| count.to_string()).join(" ");
        let Answer {
            number,
            area,
            record,
            ..
        } = answer;
        format!("{number} {area} {record} {counts}")
    };
    Err(format!(
        "{who} answered {} and not {}",
        line(answer),
        line(wanted)
    ))
}

/// Every lent word is as it was lent.
fn unchanged(who: &str, lent: &Lent, flat: &Flat, seed: u64) -> Verdict {
    for area in 0..8 {
        same_words(who, AREAS[area], lent.areas[area].get(), &flat.areas[area])?;
    }
    map_tails(who, [0; 5], lent, seed)?;
    guarded(who, lent)
}

/// The words of each map from a place on are as they were lent.
fn map_tails(who: &str, from: [usize; 5], lent: &Lent, seed: u64) -> Verdict {
    for area in 0..5 {
        for (place, word) in lent.maps[area].get().iter().enumerate().skip(from[area]) {
            if *word != junk(seed, place) {
                return Err(format!(
                    "{who}, {}: word {place} should have stayed and is {}",
                    MAPS[area],
                    shown(*word)
                ));
            }
        }
    }
    Ok(())
}

fn guarded(who: &str, lent: &Lent) -> Verdict {
    if lent.guarded() {
        return Ok(());
    }
    Err(format!("{who} wrote outside of a lent slice"))
}

fn same_words(who: &str, what: &str, words: &[u32], wanted: &[u32]) -> Verdict {
    if words == wanted {
        return Ok(());
    }
    let place = words.iter().zip(wanted).position(|(a, b)| a != b);
    match place {
        Some(place) => Err(format!(
            "{who}, {what}: word {place} is {} and not {}",
            shown(words[place]),
            shown(wanted[place])
        )),
        None => Err(format!(
            "{who}, {what}: {} words and not {}",
            words.len(),
            wanted.len()
        )),
    }
}

/// A refused pass: the number with its place, and not a word changed.
fn refused(library: &dyn Library, flat: &Flat, refusal: Refusal, keep: bool, seed: u64) -> Verdict {
    let mut lent = lend(flat, seed);
    let answer = library.compact(&mut lent, keep);
    same_answer("compact", answer, refusal.answer())?;
    unchanged("compact", &lent, flat, seed)
}

/// An accepted pass, held against the published Rust and against the closure.
fn accepted(
    library: &dyn Library,
    flat: &Flat,
    keep: bool,
    seed: u64,
    stats: &mut Stats,
) -> Verdict {
    let mut lent = lend(flat, seed);
    let answer = library.compact(&mut lent, keep);
    let marks = closure::closure(flat, keep);
    let by_closure = closure::after(flat, &marks);
    #[cfg(published)]
    {
        let by_rust = by_rust(library, flat, keep, seed, stats)?;
        let who = "the library against the published Rust";
        same_pass(who, answer, &lent, &by_rust)?;
        same_sides(&by_rust, &by_closure)?;
        stats.count(Counted::AgainstRust, 1);
    }
    same_pass(
        "the library against the closure",
        answer,
        &lent,
        &by_closure,
    )?;
    stats.count(Counted::AgainstClosure, 1);
    let records = std::array::from_fn(|area| flat.records(area));
    map_tails("compact", records, &lent, seed)?;
    count(flat, &by_closure, &marks, stats);
    stats.kept(keep, &by_closure.counts);
    lent_whole(library, &lent)?;
    second_pass(library, &by_closure, keep, seed)?;
    stats.count(Counted::SecondPasses, 1);
    let mut rng = Rng::part(seed, 77);
    for map in &by_closure.maps {
        // Long maps more often, so that their ends have their turn; but each range takes as long as it is.
        for _ in 0..=(map.len() / 256).min(16) {
            entries(library, map, &mut rng, stats)?;
        }
    }
    Ok(())
}

/// What a pass of the library answered and left is what another left.
pub fn same_pass(who: &str, answer: Answer, lent: &Lent, other: &After) -> Verdict {
    guarded(who, lent)?;
    same_after(who, answer, lent, &other.counts, &other.areas)?;
    same_maps(who, lent, &other.maps)
}

/// The answer and every word of every area after a pass.
fn same_after(
    who: &str,
    answer: Answer,
    lent: &Lent,
    counts: &[u32; 7],
    areas: &[Vec<u32>; 8],
) -> Verdict {
    let accepted = Answer {
        counts: *counts,
        ..Answer::default()
    };
    same_answer(who, answer, accepted)?;
    for area in 0..8 {
        same_words(who, AREAS[area], lent.areas[area].get(), &areas[area])?;
    }
    Ok(())
}

/// The words of each map that belong to old records.
fn same_maps(who: &str, lent: &Lent, maps: &[Vec<u32>; 5]) -> Verdict {
    for (area, map) in maps.iter().enumerate() {
        same_words(who, MAPS[area], &lent.maps[area].get()[..map.len()], map)?;
    }
    Ok(())
}

/// What the published Rust leaves is what the closure asks for.
#[cfg(published)]
fn same_sides(by_rust: &After, by_closure: &After) -> Verdict {
    let who = "the published Rust against the closure";
    same_words(who, "counts", &by_rust.counts, &by_closure.counts)?;
    for (area, name) in AREAS.iter().enumerate() {
        same_words(who, name, &by_rust.areas[area], &by_closure.areas[area])?;
    }
    for (area, name) in MAPS.iter().enumerate() {
        same_words(who, name, &by_rust.maps[area], &by_closure.maps[area])?;
    }
    Ok(())
}

/// What a pass left, lent whole to `check`: N to the old end is refused unless nothing was dropped.
fn lent_whole(library: &dyn Library, lent: &Lent) -> Verdict {
    let expected = expect_check(&lent.flat());
    let wanted = expected.map_or(Answer::default(), Refusal::answer);
    same_answer("check of a whole result", library.check(lent), wanted)
}

/// A second pass over the areas cut to their counts changes nothing.
fn second_pass(library: &dyn Library, first: &After, keep: bool, seed: u64) -> Verdict {
    let who = "the second pass";
    let mut flat = cut(first);
    let extra = usize::from(seed.is_multiple_of(3));
    for room in &mut flat.rooms {
        *room += extra;
    }
    let mut lent = lend(&flat, seed);
    let answer = library.compact(&mut lent, keep);
    same_after(who, answer, &lent, &first.counts, &flat.areas)?;
    for (area, name) in MAPS.iter().enumerate() {
        let map = lent.maps[area].get();
        let moved = (0..first.counts[area]).find(|place| map[*place as usize] != *place);
        if let Some(place) = moved {
            return Err(format!("{who}, {name}: {place} is not its own number"));
        }
    }
    let records = std::array::from_fn(|area| first.counts[area] as usize);
    map_tails(who, records, &lent, seed)
}

/// What a pass left, each area cut to its kept records.
pub fn cut(after: &After) -> Flat {
    let mut flat = Flat {
        areas: after.areas.clone(),
        rooms: [0; 5],
    };
    for area in 0..7 {
        flat.areas[area].truncate(after.counts[area] as usize * WIDTHS[area]);
    }
    flat.fit_rooms();
    flat
}

/// One answer each of lookup, adjust and range on a map.
pub fn entries(library: &dyn Library, map: &[u32], rng: &mut Rng, stats: &mut Stats) -> Verdict {
    let handle = any_handle(map, rng);
    let (start, end) = (any_handle(map, rng), any_handle(map, rng));
    same_entry(
        "lookup",
        map,
        &[handle],
        &[library.lookup(map, handle)],
        &[maps::lookup(map, handle)],
    )?;
    same_entry(
        "adjust",
        map,
        &[handle],
        &library.adjust(map, handle),
        &maps::adjust(map, handle),
    )?;
    for (start, end) in [(start, end), (start.min(end), start.max(end))] {
        let got = library.adjust_range(map, start, end);
        same_entry(
            "range",
            map,
            &[start, end],
            &got,
            &maps::adjust_range(map, start, end),
        )?;
    }
    stats.count(Counted::Entries, 4);
    Ok(())
}

/// A handle in the map, at its end or past it; also one in the map but for a high bit.
fn any_handle(map: &[u32], rng: &mut Rng) -> u32 {
    match rng.below(16) {
        0 => N,
        1 if rng.one_in(2) => rng.word(),
        1 => rng.below32(map.len() + 1) | 1 << rng.between(8, 31),
        2 => map.len() as u32,
        3 => map.len().saturating_sub(1) as u32,
        _ => rng.below32(map.len() + 2),
    }
}

fn same_entry(who: &str, map: &[u32], asked: &[u32], got: &[u32], wanted: &[u32]) -> Verdict {
    if got == wanted {
        return Ok(());
    }
    let list = |words: &[u32]| {
        let words: Vec<String> = words.iter().take(64).map(|word| shown(*word)).collect();
        words.join(" ")
    };
    let (asked, got, wanted, map) = (list(asked), list(got), list(wanted), list(map));
    Err(format!(
        "{who} of {asked}: {got} and not {wanted}, on map [{map}]"
    ))
}

/// Adds up what was compared.
fn count(flat: &Flat, after: &After, marks: &closure::Marks, stats: &mut Stats) {
    let words = |slices: &[Vec<u32>]| slices.iter().map(Vec::len).sum();
    stats.count(Counted::Words, words(&after.areas[..7]));
    stats.count(Counted::MapWords, words(&after.maps));
    stats.count(Counted::Mentions, flat.records(MENTIONS));
    stats.count(Counted::Counts, 7);
    for list in marks {
        let kept = list.iter().filter(|kept| **kept).count();
        stats.count(Counted::Kept, kept);
        stats.count(Counted::Dropped, list.len() - kept);
    }
    for (place, kept) in marks[TYPES].iter().enumerate() {
        let kind = flat.record(TYPES, place)[0] as usize;
        stats.type_kinds[usize::from(!*kept)].0[kind] += 1;
    }
    for (place, kept) in marks[EXPRESSIONS].iter().enumerate() {
        let kind = flat.record(EXPRESSIONS, place)[0] as usize;
        stats.expression_kinds[usize::from(!*kept)].0[kind] += 1;
    }
    for area in 0..8 {
        stats.longest[area] = stats.longest[area].max(flat.records(area));
    }
}

/// What the published Rust leaves of an accepted module; its ranges are held against the library.
#[cfg(published)]
fn by_rust(
    library: &dyn Library,
    flat: &Flat,
    keep: bool,
    seed: u64,
    stats: &mut Stats,
) -> Result<After, String> {
    let mut rng = Rng::part(seed, u64::from(keep));
    let chosen = roads::choose(flat, &mut rng);
    for road in &chosen {
        stats.roads.0[*road as usize] += 1;
    }
    match rust::run(flat, keep, &chosen, rng.next()) {
        rust::Outcome::Through(after, adjusted) => {
            for range in adjusted {
                let (start, end) = range.before;
                let got = library.adjust_range(&range.map, start, end);
                let wanted = [0, range.after.0, range.after.1];
                same_entry(
                    "range of a function body",
                    &range.map,
                    &[start, end],
                    &got,
                    &wanted,
                )?;
                stats.count(Counted::Emits, 1);
            }
            Ok(*after)
        }
        rust::Outcome::Panicked(panic) => Err(format!("the published Rust panicked at {panic}")),
        rust::Outcome::Garbled(why) => Err(format!("the published Rust left nonsense: {why}")),
        rust::Outcome::Endless => Err(String::from("an accepted module has an endless type")),
    }
}

/// Notes what the published Rust does with a module that is refused with 5, 6 or 7.
#[cfg(published)]
fn tabulate(flat: &Flat, refusal: Refusal, keep: bool, seed: u64, stats: &mut Stats) {
    if refusal.number < 5 || !convert::holdable(flat) {
        return;
    }
    let mut rng = Rng::part(seed, u64::from(keep));
    let chosen = roads::choose(flat, &mut rng);
    let outcome = rust::run(flat, keep, &chosen, rng.next());
    let what = told(flat, refusal, keep, &outcome);
    *stats.refused.entry((refusal.number, what)).or_default() += 1;
}

/// In words, what the published Rust did with a refused module.
#[cfg(published)]
pub fn told(flat: &Flat, refusal: Refusal, keep: bool, outcome: &rust::Outcome) -> String {
    let (closure, sweep) = if refusal.number == 7 {
        let closure = closure::closure(flat, keep);
        let short = closure != closure::sweep(flat, keep);
        (Some(closure::after(flat, &closure)), short)
    } else {
        (None, false)
    };
    let sweep = match closure {
        Some(_) if sweep => ", the sweep falls short",
        Some(_) => ", the sweep is the closure",
        None => "",
    };
    match outcome {
        rust::Outcome::Panicked(panic) => format!("panics at {panic}{sweep}"),
        rust::Outcome::Garbled(why) => format!("gets through with nonsense ({why}){sweep}"),
        rust::Outcome::Endless => String::from("not run: is_abstract of an array of itself"),
        rust::Outcome::Through(after, _) => match closure {
            Some(closure) if closure == **after => format!("gets through, right{sweep}"),
            Some(_) => format!("gets through, other than the closure{sweep}"),
            None => String::from("gets through"),
        },
    }
}
