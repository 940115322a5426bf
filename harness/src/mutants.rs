//! Wrong libraries. Each answers as the right one does but for one thing, and a run must catch it.

use crate::closure::{self, Marks};
use crate::expect::deps;
use crate::flat::*;
use crate::generate::large::Turn::{self, Chains, Deps, Edge, Faults, Live, Past};
use crate::generate::large::{turn, Share, LAST};
use crate::library::{Lent, Library};
use crate::maps;
use crate::run;
use std::collections::BTreeSet;
use std::sync::atomic::{AtomicU64, Ordering};
use std::time::Instant;

/// The run that must catch each one: that of `test.sh`, and no further than so many blocks, with the first
/// turns of the large modules among them. A bound in time would hang on what else the machine does.
const SEED: u64 = 1;
const BLOCKS: u64 = run::FIRST_BLOCKS;

/// A wrong library: what is wrong with it.
pub struct Mutant {
    pub name: &'static str,
    spoil: Spoil,
    /// The large modules that show it, where hardly any others do.
    shown_by: Option<Turn>,
}

/// Whose right answer is spoilt, and how.
enum Spoil {
    /// An accepted pass.
    Accepted(fn(&mut Pass)),
    /// An accepted pass: it keeps what it would if the module and the flag were these.
    Keeps(fn(&mut Flat, &mut bool)),
    /// A refused pass.
    Refused(fn(&mut Pass)),
    Check(fn(&Flat, &mut Answer)),
    Lookup(fn(&[u32], u32, &mut u32)),
    Adjust(fn(&[u32], u32, &mut [u32; 2])),
    Range(fn(&[u32], [u32; 2], &mut [u32; 3])),
}

use Spoil::{Accepted, Adjust, Check, Keeps, Lookup, Range, Refused};

/// What a pass was lent, what it left and what it answered.
struct Pass<'a> {
    before: &'a Lent,
    flat: &'a Flat,
    keep: bool,
    lent: &'a mut Lent,
    answer: &'a mut Answer,
}

impl Pass<'_> {
    fn area(&mut self, area: usize) -> &mut [u32] {
        self.lent.areas[area].get_mut()
    }

    fn map(&mut self, area: usize) -> &mut [u32] {
        self.lent.maps[area].get_mut()
    }

    /// Whether all that an area can have was kept.
    fn full(&self, area: usize) -> bool {
        self.answer.counts[area] as usize == LIMITS[area]
    }

    /// Whether every record of the arenas was kept.
    fn drops_nothing(&self) -> bool {
        (0..5).all(|area| self.answer.counts[area] as usize == self.flat.records(area))
    }

    /// Each kept record as it was and as it is.
    fn each(&mut self, area: usize, mut spoil: impl FnMut(&[u32], &mut [u32])) {
        for place in 0..self.flat.records(area) {
            let new = self.lent.maps[area].get()[place];
            if new != N {
                let at = new as usize * WIDTHS[area];
                let record = &mut self.lent.areas[area].get_mut()[at..at + WIDTHS[area]];
                spoil(self.flat.record(area, place), record);
            }
        }
    }

    /// The tail of each kept record as it was and as it is.
    fn tails(&mut self, area: usize, mut spoil: impl FnMut(Tail, &mut [u32])) {
        self.each(area, |old, new| {
            spoil(tail(area, old), &mut new[BODIES[area]..])
        });
    }

    /// Each kept record has the span of the record at another place of the module, if there is one.
    fn spans_from(&mut self, area: usize, other: impl Fn(usize, usize) -> usize) {
        for place in 0..self.flat.records(area) {
            let new = self.lent.maps[area].get()[place];
            let from = other(place, new as usize);
            if new != N && from < self.flat.records(area) {
                let [start, length, _] = self.flat.tail(area, from);
                self.put_span(area, new as usize, [start, length]);
            }
        }
    }

    fn put_span(&mut self, area: usize, place: usize, [start, length]: [u32; 2]) {
        let at = place * WIDTHS[area] + BODIES[area];
        let words = self.area(area);
        words[at + START] = start;
        words[at + LENGTH] = length;
    }

    /// The spans past the kept records are left as they were.
    fn freed_spans_stay(&mut self, area: usize) {
        for place in self.answer.counts[area] as usize..self.flat.records(area) {
            let [start, length, _] = self.flat.tail(area, place);
            self.put_span(area, place, [start, length]);
        }
    }

    /// Refuses the first record with such a span.
    fn refuse_span(&mut self, number: u32, fits: impl Fn(u32, u32) -> bool) {
        if let Some((area, place)) = odd_span(self.flat, fits) {
            self.refuse(number, area, place);
        }
    }

    /// This word of each kept record of a kind is left as it was.
    fn stays(&mut self, area: usize, kind: u32, word: usize) {
        self.each(area, |old, new| {
            if old[0] == kind {
                new[word] = old[word];
            }
        });
    }

    /// The last word of an area is left as it was.
    fn end_stays(&mut self, area: usize) {
        let old = self.flat.areas[area].last();
        if let (Some(word), Some(old)) = (self.area(area).last_mut(), old) {
            *word = *old;
        }
    }

    /// The place after the last kept record is left as it was.
    fn next_stays(&mut self, area: usize) {
        let (at, flat) = (self.answer.counts[area] as usize, self.flat);
        if at < flat.records(area) {
            let words = &mut self.area(area)[at * WIDTHS[area]..];
            words[..WIDTHS[area]].copy_from_slice(flat.record(area, at));
        }
    }

    /// The map word of the last record is left as it was.
    fn map_end_stays(&mut self, area: usize) {
        if let Some(last) = self.flat.records(area).checked_sub(1) {
            self.map(area)[last] = self.before.maps[area].get()[last];
        }
    }

    /// Mentions of an area are left as they were.
    fn mentions_stay(&mut self, area: usize) {
        let old = self.flat.each(MENTIONS);
        for (new, old) in self.lent.areas[MENTIONS].get_mut().chunks_mut(2).zip(old) {
            if old[0] as usize == area {
                new[1] = old[1];
            }
        }
    }

    /// Refuses the first type that fits, with 4.
    fn refuse_type(&mut self, fits: impl Fn(&[u32]) -> bool) {
        if let Some(place) = self.flat.each(TYPES).position(fits) {
            self.refuse(4, TYPES, place);
        }
    }

    /// Refuses what was accepted.
    fn refuse(&mut self, number: u32, area: usize, record: usize) {
        *self.lent = self.before.clone();
        *self.answer = Refusal::new(number, area, record).answer();
    }

    /// Accepts what was refused and leaves it as it is.
    fn accept(&mut self) {
        *self.answer = Answer::default();
    }

    /// Accepts and keeps these.
    fn leave(&mut self, marks: &Marks) {
        *self.answer = self.lent.leave(&closure::after(self.flat, marks));
    }

    /// Accepts what was refused and keeps what the roots reach.
    fn accept_reached(&mut self) {
        self.leave(&closure::closure(self.flat, self.keep));
    }

    /// Whether the pass was refused with this number in this area.
    fn at(&self, number: u32, area: usize) -> bool {
        (self.answer.number, self.answer.area) == (number, area as u32)
    }

    fn told_area(&self) -> usize {
        self.answer.area as usize
    }

    /// How many records the area has that a refusal tells.
    fn told_records(&self) -> usize {
        self.flat.records(self.told_area())
    }

    /// The record that a refusal tells.
    fn told(&self) -> &[u32] {
        told(self.flat, self.answer)
    }

    /// The type whose dep alone makes the `ZeroValue` that a 7 tells ill ordered.
    fn told_dep_of(&self) -> Option<u32> {
        let named = self.told().get(1).copied();
        named.filter(|_| self.at(7, EXPRESSIONS) && self.told()[0] == 7)
    }

    /// Whether a refusal tells a record with a run whose end passes 32 bits.
    fn told_run_wraps(&self) -> bool {
        match (self.told_area(), self.told()) {
            (TYPES, [3, _, start, count, ..]) | (EXPRESSIONS, [COMPOSE, _, start, count, ..]) => {
                start.checked_add(*count).is_none()
            }
            _ => false,
        }
    }
}

/// The record that an answer tells, or no words.
fn told<'a>(flat: &'a Flat, answer: &Answer) -> &'a [u32] {
    let (area, record) = (answer.area as usize, answer.record as usize);
    match answer.number {
        4.. if record < flat.records(area) => flat.record(area, record),
        _ => &[],
    }
}

/// The first record of the arenas with such a span.
fn odd_span(flat: &Flat, fits: impl Fn(u32, u32) -> bool) -> Option<(usize, usize)> {
    (0..5).find_map(|area| {
        let odd = |record: &[u32]| {
            let [start, length, _] = tail(area, record);
            fits(start, length)
        };
        flat.each(area).position(odd).map(|place| (area, place))
    })
}

/// Adds one to a word, if it is there.
fn bump(word: Option<&mut u32>) {
    if let Some(word) = word {
        *word = word.wrapping_add(1);
    }
}

/// Mentions every record of an area that fits.
fn mention(flat: &mut Flat, area: usize, fits: impl Fn(&[u32]) -> bool) {
    for place in 0..flat.records(area) {
        if fits(flat.record(area, place)) {
            flat.push(MENTIONS, &[area as u32, place as u32]);
        }
    }
}

/// Sets a word of every record of an area that fits.
fn set(flat: &mut Flat, area: usize, word: usize, to: u32, fits: impl Fn(&[u32]) -> bool) {
    let records = flat.areas[area].chunks_mut(WIDTHS[area]);
    for record in records.filter(|record| fits(record)) {
        record[word] = to;
    }
}

/// The first arena with so many records or more.
fn arena_from(flat: &Flat, records: usize) -> Option<usize> {
    (0..5).find(|area| flat.records(*area) >= records)
}

/// Takes the marks of all but the first records away, counted over the arenas.
fn drop_past(marks: &mut Marks, first: usize) {
    for kept in marks.iter_mut().flatten().skip(first) {
        *kept = false;
    }
}

/// Marks each place that is so many places, or twice as many and so on, from a marked one.
fn fold(marks: &[bool], by: usize) -> Vec<bool> {
    let marked = |at: usize| marks.iter().skip(at).step_by(by).any(|kept| *kept);
    let first: Vec<bool> = (0..by.min(marks.len())).map(marked).collect();
    (0..marks.len()).map(|place| first[place % by]).collect()
}

/// The first `ZeroValue` of a type from `first` on that the next type's dep would make ill ordered.
fn late_by_one(flat: &Flat, first: usize) -> Option<usize> {
    let deps = deps(flat);
    let mut records = flat.each(EXPRESSIONS).enumerate();
    let late = records.find(|(place, record)| {
        let ty = record[1] as usize;
        record[0] == 7
            && ty >= first
            && deps
                .get(ty + 1)
                .is_some_and(|dep| *dep >= Some(*place as u32))
    });
    late.map(|(place, _)| place)
}

/// The first arena whose map is too short.
fn short_map(flat: &Flat) -> Option<usize> {
    (0..5).find(|area| flat.rooms[*area] < flat.records(*area))
}

/// The last expression of kind 13 or 27.
fn last_misplaced(flat: &Flat) -> u32 {
    let mut records = flat.each(EXPRESSIONS);
    let found = records.rposition(|record| matches!(record[0], GLOBAL_VARIABLE | CALL_RESULT));
    found.map_or(N, |place| place as u32)
}

/// The number after the greatest one in a range of a map.
fn past_greatest(map: &[u32], [start, end]: [u32; 2]) -> u32 {
    let range = map[start as usize..end as usize].iter();
    let most = range.filter(|word| **word != N).max();
    most.map_or(0, |most| most + 1)
}

/// What references lead to from the roots in so many steps.
fn reached(flat: &Flat, keep: bool, steps: usize) -> Marks {
    let mut marks = closure::roots(flat, keep);
    let mut last: Vec<(usize, usize)> = Vec::new();
    for (area, list) in marks.iter().enumerate() {
        last.extend(
            (0..list.len())
                .filter(|place| list[*place])
                .map(|place| (area, place)),
        );
    }
    for _ in 0..steps {
        for (area, place) in std::mem::take(&mut last) {
            handles(flat, area, place, |to, handle| {
                let handle = handle as usize;
                if !std::mem::replace(&mut marks[to][handle], true) {
                    last.push((to, handle));
                }
            });
        }
    }
    marks
}

/// Whether all operands of an expression, and the inits behind it, are older.
fn operands_older(flat: &Flat, place: usize) -> bool {
    let mut older = true;
    handles(flat, EXPRESSIONS, place, |to, handle| {
        let operand = match to {
            CONSTANTS | OVERRIDES => flat.record(to, handle as usize)[2],
            EXPRESSIONS => handle,
            _ => N,
        };
        older &= operand == N || (operand as usize) < place;
    });
    older
}

/// True at each thousandth pass.
fn thousandth() -> bool {
    static PASSES: AtomicU64 = AtomicU64::new(1);
    PASSES.fetch_add(1, Ordering::SeqCst).is_multiple_of(1000)
}

const fn wrong(name: &'static str, spoil: Spoil) -> Mutant {
    Mutant {
        name,
        spoil,
        shown_by: None,
    }
}

const fn large(turn: Turn, name: &'static str, spoil: Spoil) -> Mutant {
    Mutant {
        name,
        spoil,
        shown_by: Some(turn),
    }
}

/// All wrong libraries.
#[rustfmt::skip]
pub static MUTANTS: &[Mutant] = &[
    // The answer of an accepted pass.
    wrong("counts one constant too many", Accepted(|p| p.answer.counts[CONSTANTS] += 1)),
    wrong("counts the members as they were", Accepted(|p| p.answer.counts[MEMBERS] = p.flat.records(MEMBERS) as u32)),
    wrong("counts no components", Accepted(|p| p.answer.counts[COMPONENTS] = 0)),
    wrong("counts one type too few", Accepted(|p| p.answer.counts[TYPES] = p.answer.counts[TYPES].saturating_sub(1))),
    wrong("counts the expressions as they were", Accepted(|p| p.answer.counts[EXPRESSIONS] = p.flat.records(EXPRESSIONS) as u32)),
    wrong("exchanges the counts of overrides and globals", Accepted(|p| p.answer.counts.swap(OVERRIDES, GLOBALS))),
    wrong("counts in twelve bits", Accepted(|p| for count in &mut p.answer.counts[..5] { *count &= 0xfff })),
    large(Edge(TYPES), "counts in sixteen bits", Accepted(|p| for count in &mut p.answer.counts[..5] { *count &= 0xffff })),
    wrong("names a record though it accepts", Accepted(|p| p.answer.record = 1)),
    // The words of records.
    wrong("tag of a type whose handles change", Accepted(|p| p.each(TYPES, |old, new| if old[..BODIES[TYPES]] != new[..BODIES[TYPES]] { new[BODIES[TYPES] + TAG] ^= 1 }))),
    wrong("tag of the last expression", Accepted(|p| if let last @ 1.. = p.answer.counts[4] as usize { p.area(EXPRESSIONS)[WIDTHS[EXPRESSIONS] * last - 1] ^= 1 })),
    wrong("tag of a global that is N becomes 0", Accepted(|p| p.tails(GLOBALS, |old, new| if old[TAG] == N { new[TAG] = 0 }))),
    wrong("tag of an override loses its highest bit", Accepted(|p| p.tails(OVERRIDES, |_, new| new[TAG] &= N >> 1))),
    wrong("forgets that a type is abstract", Accepted(|p| p.each(TYPES, |_, new| new[1] &= !ABSTRACT))),
    wrong("forgets the name of a constant", Accepted(|p| p.each(CONSTANTS, |_, new| new[0] = 0))),
    wrong("forgets the name of an override with Yes", Accepted(|p| if p.keep { p.each(OVERRIDES, |_, new| new[0] = 0) })),
    wrong("base of a pointer stays", Accepted(|p| p.stays(TYPES, 1, 2))),
    wrong("override of an array stays", Accepted(|p| p.stays(TYPES, 2, 3))),
    wrong("start of a struct's run stays", Accepted(|p| p.stays(TYPES, 3, 2))),
    wrong("run of a struct without members starts at 0", Accepted(|p| p.each(TYPES, |old, new| if old[0] == 3 && old[3] == 0 { new[2] = 0 }))),
    wrong("start of a Compose's run stays", Accepted(|p| p.stays(EXPRESSIONS, COMPOSE, 2))),
    wrong("type of a Compose stays", Accepted(|p| p.stays(EXPRESSIONS, COMPOSE, 1))),
    wrong("first member stays", Accepted(|p| if p.answer.counts[MEMBERS] > 0 { p.area(MEMBERS)[0] = p.flat.areas[MEMBERS][0] })),
    wrong("exchanges the last two components", Accepted(|p| if let count @ 2.. = p.answer.counts[6] as usize { p.area(COMPONENTS).swap(count - 1, count - 2) })),
    wrong("init of a constant stays", Accepted(|p| p.each(CONSTANTS, |old, new| new[2] = old[2]))),
    wrong("an override without init gets one", Accepted(|p| p.each(OVERRIDES, |old, new| if old[2] == N { new[2] = 0 }))),
    wrong("loses the init of a global", Accepted(|p| p.each(GLOBALS, |_, new| new[1] = N))),
    wrong("type of a global stays with Yes", Accepted(|p| if p.keep { p.each(GLOBALS, |old, new| new[0] = old[0]) })),
    wrong("fourth operand of Math stays", Accepted(|p| p.stays(EXPRESSIONS, 24, 4))),
    wrong("third operand of Select stays", Accepted(|p| p.stays(EXPRESSIONS, 21, 3))),
    wrong("y of an ImageSample's gradient stays", Accepted(|p| p.each(EXPRESSIONS, |old, new| if old[0] == IMAGE_SAMPLE && old[6] == 4 { new[8] = old[8] }))),
    wrong("loses the depth reference of an ImageSample", Accepted(|p| p.each(EXPRESSIONS, |old, new| if old[0] == IMAGE_SAMPLE { new[9] = N }))),
    wrong("level of an ImageQuery's size stays", Accepted(|p| p.each(EXPRESSIONS, |old, new| if old[0] == IMAGE_QUERY && old[2] == 0 { new[3] = old[3] }))),
    wrong("type of kind 30 stays", Accepted(|p| p.stays(EXPRESSIONS, 30, 1))),
    wrong("operand of kind 31 is N where it is the first expression", Accepted(|p| p.each(EXPRESSIONS, |old, new| if old[0] == 31 && new[1] == 0 { new[1] = N }))),
    // Spans: dropped, another record's, read, judged.
    wrong("start of a type's span is 0", Accepted(|p| p.tails(TYPES, |_, new| new[START] = 0))),
    wrong("span of a constant is N", Accepted(|p| p.tails(CONSTANTS, |_, new| new[..TAG].fill(N)))),
    wrong("exchanges start and length of an override", Accepted(|p| p.tails(OVERRIDES, |_, new| new.swap(START, LENGTH)))),
    wrong("a global has the next one's span", Accepted(|p| p.spans_from(GLOBALS, |place, _| place + 1))),
    wrong("spans of the expressions stay where they were", Accepted(|p| p.spans_from(EXPRESSIONS, |_, new| new))),
    wrong("length of an expression's span becomes its end", Accepted(|p| p.tails(EXPRESSIONS, |old, new| new[LENGTH] = old[START].wrapping_add(old[LENGTH])))),
    wrong("start of a type's span is moved as a handle", Accepted(|p| { let map = p.map(TYPES).to_vec(); p.tails(TYPES, |old, new| new[START] = maps::adjust(&map, old[START])[1]) })),
    wrong("length of a constant's span in sixteen bits", Accepted(|p| p.tails(CONSTANTS, |_, new| new[LENGTH] &= 0xffff))),
    wrong("a span of 0 and 0 becomes N and N", Accepted(|p| for area in 0..5 { p.tails(area, |_, new| if new[..TAG] == [0, 0] { new[..TAG].fill(N) }) })),
    wrong("spans of dropped expressions stay", Accepted(|p| p.freed_spans_stay(EXPRESSIONS))),
    wrong("spans of dropped globals stay with No", Accepted(|p| if !p.keep { p.freed_spans_stay(GLOBALS) })),
    wrong("refuses a span of N and N with 6", Accepted(|p| p.refuse_span(6, |start, length| [start, length] == [N, N]))),
    wrong("refuses a span whose end passes 32 bits with 4", Accepted(|p| p.refuse_span(4, |start, length| start.checked_add(length).is_none()))),
    // What is past the kept records.
    wrong("last word of the types stays", Accepted(|p| p.end_stays(TYPES))),
    wrong("last member stays", Accepted(|p| p.end_stays(MEMBERS))),
    wrong("last component is 0 where it was dropped", Accepted(|p| if let Some(word) = p.area(COMPONENTS).last_mut() { if *word == N { *word = 0 } })),
    wrong("the first dropped override's place is not freed", Accepted(|p| p.next_stays(OVERRIDES))),
    wrong("frees nothing where a single expression is dropped", Accepted(|p| if p.answer.counts[4] as usize + 1 == p.flat.records(4) { p.end_stays(EXPRESSIONS) })),
    wrong("writes past the types", Accepted(|p| p.lent.areas[TYPES].break_guard())),
    wrong("writes past the map of the expressions", Accepted(|p| p.lent.maps[EXPRESSIONS].break_guard())),
    // Maps and mentions.
    wrong("a dropped type's word in its map is 0", Accepted(|p| for place in 0..p.flat.records(TYPES) { if p.map(TYPES)[place] == N { p.map(TYPES)[place] = 0 } })),
    wrong("first word of the map of the constants", Accepted(|p| if p.flat.records(CONSTANTS) > 0 { bump(p.map(CONSTANTS).first_mut()) })),
    wrong("map of the expressions is filled though nothing is dropped", Accepted(|p| if p.drops_nothing() { let records = p.flat.records(4); p.map(4)[..records].fill(N) })),
    wrong("last word of the map of the globals stays", Accepted(|p| p.map_end_stays(GLOBALS))),
    wrong("map of the overrides stays", Accepted(|p| p.lent.maps[OVERRIDES] = p.before.maps[OVERRIDES].clone())),
    wrong("word past the records in the map of the constants", Accepted(|p| { let records = p.flat.records(CONSTANTS); bump(p.map(CONSTANTS).get_mut(records)) })),
    wrong("last word past the records in the map of the expressions", Accepted(|p| { let records = p.flat.records(4); if let Some(word) = p.map(4)[records..].last_mut() { *word = N } })),
    wrong("last mention stays", Accepted(|p| p.end_stays(MENTIONS))),
    wrong("a mention of a global stays", Accepted(|p| p.mentions_stay(GLOBALS))),
    wrong("the second mention of one handle is N", Accepted(|p| { let words = p.area(MENTIONS); if words.len() > 3 && words[..2] == words[2..4] { words[3] = N } })),
    wrong("moves the last mention where nothing is dropped", Accepted(|p| if p.drops_nothing() { bump(p.area(MENTIONS).last_mut()) })),
    wrong("spoils each thousandth pass", Accepted(|p| if thousandth() { p.answer.counts[TYPES] += 1 })),
    // What is kept.
    wrong("takes Yes for No", Keeps(|_, keep| *keep = false)),
    wrong("takes No for Yes", Keeps(|_, keep| *keep = true)),
    wrong("takes a flag that is not 1 for No", Accepted(|p| if p.keep && p.before.yes != 1 { p.leave(&closure::closure(p.flat, false)) })),
    wrong("takes the lowest byte of the flag", Accepted(|p| if p.keep && p.before.yes & 0xff == 0 { p.leave(&closure::closure(p.flat, false)) })),
    wrong("keeps the first type always", Keeps(|flat, _| if flat.records(TYPES) > 0 { flat.push(MENTIONS, &[0, 0]) })),
    wrong("keeps every global with No", Keeps(|flat, _| mention(flat, GLOBALS, |_| true))),
    wrong("keeps a named override with No", Keeps(|flat, _| mention(flat, OVERRIDES, |record| record[0] == 1))),
    wrong("keeps an override that has no name with Yes", Keeps(|flat, keep| if *keep { mention(flat, OVERRIDES, |_| true) })),
    wrong("keeps a named constant of an abstract type", Keeps(|flat, _| mention(flat, CONSTANTS, |record| record[0] == 1))),
    wrong("drops a named constant of a type that is not abstract", Keeps(|flat, _| set(flat, CONSTANTS, 0, 0, |_| true))),
    wrong("drops a named type with Yes where it is abstract", Keeps(|flat, _| set(flat, TYPES, 1, 0, |record| record[1] == 3))),
    wrong("does not see the last mention", Keeps(|flat, _| { flat.areas[MENTIONS].pop(); flat.areas[MENTIONS].pop(); })),
    large(Chains, "follows 255 references in a row and no more", Accepted(|p| p.leave(&reached(p.flat, p.keep, 255)))),
    wrong("does not follow the override of an array", Keeps(|flat, _| set(flat, TYPES, 0, 1, |record| record[0] == 2))),
    wrong("does not follow the init of an override", Keeps(|flat, _| set(flat, OVERRIDES, 2, N, |_| true))),
    wrong("does not follow a struct past its first member", Keeps(|flat, _| set(flat, TYPES, 3, 1, |record| record[0] == 3 && record[3] > 1))),
    wrong("does not follow the offset of an ImageSample", Keeps(|flat, _| set(flat, EXPRESSIONS, 5, N, |record| record[0] == IMAGE_SAMPLE))),
    // Only at the limits.
    large(Edge(TYPES), "all 65,536 types kept: tag of the last one", Accepted(|p| if p.full(TYPES) { bump(p.area(TYPES).last_mut()) })),
    large(Edge(CONSTANTS), "all 65,536 constants kept: span of the last one", Accepted(|p| if p.full(CONSTANTS) { p.put_span(CONSTANTS, LAST, [0, 0]) })),
    large(Edge(CONSTANTS), "all 65,536 constants kept: counts 65,535", Accepted(|p| if p.full(CONSTANTS) { p.answer.counts[CONSTANTS] -= 1 })),
    large(Edge(OVERRIDES), "all 65,536 overrides kept: last word of their map", Accepted(|p| if p.full(OVERRIDES) { p.map(OVERRIDES)[LAST] = N })),
    large(Edge(GLOBALS), "all 65,536 globals kept with No: the last one is N", Accepted(|p| if p.full(GLOBALS) && !p.keep { p.area(GLOBALS)[WIDTHS[GLOBALS] * LAST..].fill(N) })),
    large(Edge(EXPRESSIONS), "all 65,536 expressions kept: the last one is N", Accepted(|p| if p.full(EXPRESSIONS) { p.area(EXPRESSIONS)[WIDTHS[EXPRESSIONS] * LAST..].fill(N) })),
    large(Edge(EXPRESSIONS), "all 65,536 expressions kept, components not at their limit", Accepted(|p| if p.full(EXPRESSIONS) && !p.full(COMPONENTS) { bump(p.area(EXPRESSIONS).last_mut()) })),
    large(Edge(MEMBERS), "all 262,144 members kept: the last one", Accepted(|p| if p.full(MEMBERS) { bump(p.area(MEMBERS).last_mut()) })),
    large(Edge(COMPONENTS), "all 262,144 components kept: counted in 18 bits", Accepted(|p| p.answer.counts[COMPONENTS] &= 0x3ffff)),
    large(Live(Share::All), "all five arenas kept whole: the first mention", Accepted(|p| if (0..5).all(|area| p.full(area)) { p.area(MENTIONS)[1] ^= 1 })),
    large(Live(Share::None), "nothing kept of five arenas at their limit: the first type stays", Accepted(|p| if !p.keep && (0..5).all(|area| p.flat.records(area) == LIMITS[area] && p.answer.counts[area] == 0) { p.next_stays(TYPES) })),
    large(Edge(MENTIONS), "65,536 mentions: the last one stays", Accepted(|p| if p.flat.records(MENTIONS) == LIMITS[MENTIONS] { p.end_stays(MENTIONS) })),
    large(Edge(GLOBALS), "does not see mention 65,536", Keeps(|flat, _| flat.areas[MENTIONS].truncate(WIDTHS[MENTIONS] * LAST))),
    large(Edge(TYPES), "refuses 65,536 records of an arena with 2", Accepted(|p| if let Some(area) = arena_from(p.flat, LIMITS[TYPES]) { p.refuse(2, area, 0) })),
    large(Edge(MEMBERS), "refuses 262,144 members with 2", Accepted(|p| if p.flat.records(MEMBERS) == LIMITS[MEMBERS] { p.refuse(2, MEMBERS, 0) })),
    // Limits, marks and words of fewer bits, as a module with less room could have them.
    large(Edge(CONSTANTS), "refuses 4,097 records of an arena with 2", Accepted(|p| if let Some(area) = arena_from(p.flat, 4097) { p.refuse(2, area, 0) })),
    large(Edge(MENTIONS), "refuses 4,097 mentions with 2", Accepted(|p| if p.flat.records(MENTIONS) > 4096 { p.refuse(2, MENTIONS, 0) })),
    large(Edge(COMPONENTS), "refuses 16,385 components with 2", Accepted(|p| if p.flat.records(COMPONENTS) > 16384 { p.refuse(2, COMPONENTS, 0) })),
    large(Edge(TYPES), "keeps none but the first 20,480 of all records", Accepted(|p| { let mut marks = closure::closure(p.flat, p.keep); drop_past(&mut marks, 20480); p.leave(&marks) })),
    large(Edge(EXPRESSIONS), "keeps no record past 4,095 of an arena", Accepted(|p| { let marks = closure::closure(p.flat, p.keep).map(|mut list| { for kept in list.iter_mut().skip(4096) { *kept = false } list }); p.leave(&marks) })),
    large(Live(Share::Half), "marks a record by the lower twelve bits of its place", Accepted(|p| { let marks = closure::closure(p.flat, p.keep).map(|list| fold(&list, 4096)); p.leave(&marks) })),
    large(Edge(CONSTANTS), "takes 65,535 in a map for none", Accepted(|p| for area in 0..5 { for word in p.map(area) { if *word == 0xffff { *word = N } } })),
    large(Edge(TYPES), "takes 65,535 in a mention for none", Accepted(|p| for word in p.area(MENTIONS) { if *word == 0xffff { *word = N } })),
    large(Edge(MEMBERS), "start of a struct's run in sixteen bits", Accepted(|p| p.each(TYPES, |old, new| if old[0] == 3 { new[2] &= 0xffff }))),
    large(Edge(COMPONENTS), "count of a Compose's run in sixteen bits", Accepted(|p| p.each(EXPRESSIONS, |old, new| if old[0] == COMPOSE { new[3] &= 0xffff }))),
    // Other things that are refused and should not be.
    wrong("refuses a struct without members with 4", Accepted(|p| p.refuse_type(|ty| ty[0] == 3 && ty[3] == 0))),
    wrong("refuses a type that is named and abstract with 4", Accepted(|p| p.refuse_type(|ty| ty[1] == NAMED | ABSTRACT))),
    // Refusals: number, area, record, counts.
    wrong("tells a 5 as a 4", Refused(|p| if p.answer.number == 5 { p.answer.number = 4 })),
    wrong("tells 3 where 2 is due too", Refused(|p| if let (2, Some(area)) = (p.answer.number, short_map(p.flat)) { *p.answer = Refusal::new(3, area, 0).answer() })),
    wrong("tells a 6 of a mention at the components", Refused(|p| if p.at(6, MENTIONS) { p.answer.area = 6 })),
    wrong("tells a 1 of the mentions at the globals", Refused(|p| if p.at(1, MENTIONS) { p.answer.area = 3 })),
    wrong("tells a 7 of an expression at the next one", Refused(|p| if p.at(7, EXPRESSIONS) { p.answer.record += 1 })),
    wrong("tells the last expression of kind 13 or 27", Refused(|p| if p.answer.number == 5 { p.answer.record = last_misplaced(p.flat) })),
    large(Past, "tells a record with a 2", Refused(|p| if p.answer.number == 2 { p.answer.record = LIMITS[p.told_area()] as u32 })),
    wrong("tells a record in eight bits", Refused(|p| p.answer.record &= 0xff)),
    large(Faults, "tells a record in twelve bits", Refused(|p| p.answer.record &= 0xfff)),
    wrong("counts the types on a 4", Refused(|p| if p.answer.number == 4 { p.answer.counts[TYPES] = p.flat.records(TYPES) as u32 })),
    // Refusals: words written.
    wrong("writes a member on a 7", Refused(|p| if p.answer.number == 7 { bump(p.area(MEMBERS).first_mut()) })),
    wrong("writes the first type on a 7", Refused(|p| if p.answer.number == 7 { bump(p.area(TYPES).first_mut()) })),
    wrong("writes the tag of the last expression on a 7", Refused(|p| if p.answer.number == 7 { bump(p.area(EXPRESSIONS).last_mut()) })),
    wrong("writes the span of the last global on a 7", Refused(|p| if let (7, last @ 1..) = (p.answer.number, p.flat.records(GLOBALS)) { p.put_span(GLOBALS, last - 1, [N, N]) })),
    wrong("writes the constants on a 4", Refused(|p| if p.answer.number == 4 { p.area(CONSTANTS).fill(N) })),
    wrong("writes the first override on a 5", Refused(|p| if p.answer.number == 5 { bump(p.area(OVERRIDES).first_mut()) })),
    wrong("writes the last component on a 6", Refused(|p| if p.answer.number == 6 { bump(p.area(COMPONENTS).last_mut()) })),
    wrong("writes the last word of the globals on a 6", Refused(|p| if p.answer.number == 6 { bump(p.area(GLOBALS).last_mut()) })),
    wrong("writes the last word of the map of the expressions on a 6", Refused(|p| if p.answer.number == 6 { bump(p.map(EXPRESSIONS).last_mut()) })),
    wrong("writes the map of the types on a 7 with Yes", Refused(|p| if p.answer.number == 7 && p.keep { p.map(TYPES).fill(N) })),
    wrong("writes the mentions on a 1", Refused(|p| if p.answer.number == 1 { p.area(MENTIONS).fill(N) })),
    wrong("writes past the constants on a 3", Refused(|p| if p.answer.number == 3 { p.lent.areas[CONSTANTS].break_guard() })),
    // Accepted where a refusal is due.
    large(Past, "accepts one record above a limit", Refused(|p| if p.answer.number == 2 && p.told_records() == LIMITS[p.told_area()] + 1 { p.accept() })),
    large(Past, "accepts one type above the limit and keeps what is reached", Refused(|p| if p.at(2, TYPES) && p.told_records() == LIMITS[TYPES] + 1 { p.accept_reached() })),
    large(Past, "accepts one word above the limit of a pool", Refused(|p| if p.answer.number == 2 && matches!(p.told_area(), MEMBERS | COMPONENTS) && p.told_records() == LIMITS[MEMBERS] + 1 { p.accept() })),
    large(Past, "has no limits", Refused(|p| if p.answer.number == 2 { p.accept() })),
    wrong("accepts a map that is one word short", Refused(|p| if p.answer.number == 3 && p.told_records() == p.flat.rooms[p.told_area()] + 1 { p.accept() })),
    wrong("accepts a run whose end passes 32 bits", Refused(|p| if p.answer.number == 4 && p.told_run_wraps() { p.accept() })),
    wrong("accepts any x of an ImageSample that has none", Refused(|p| if p.at(4, EXPRESSIONS) && matches!(p.told(), [IMAGE_SAMPLE, _, _, _, _, _, 0 | 1, x, ..] if *x != N) { p.accept() })),
    wrong("accepts a mention of a type that is not there", Refused(|p| if p.at(6, MENTIONS) && p.told()[0] == 0 { p.accept() })),
    wrong("accepts a 7 of a type and keeps what is reached", Refused(|p| if p.at(7, TYPES) { p.accept_reached() })),
    wrong("accepts a 7 of an expression and keeps what is reached", Refused(|p| if p.at(7, EXPRESSIONS) { p.accept_reached() })),
    wrong("accepts a 7 of a kind 6 and keeps what is reached", Refused(|p| if p.at(7, EXPRESSIONS) && p.told()[0] == OVERRIDE { p.accept_reached() })),
    wrong("accepts a 7 that only dep gives", Refused(|p| if p.at(7, EXPRESSIONS) && operands_older(p.flat, p.answer.record as usize) { p.accept_reached() })),
    large(Faults, "accepts a 4 past record 4,095", Refused(|p| if p.answer.number == 4 && p.answer.record > 4095 { p.accept() })),
    large(Faults, "accepts a 6 past record 4,095", Refused(|p| if p.answer.number == 6 && p.answer.record > 4095 { p.accept() })),
    large(Faults, "accepts a 7 past record 4,095 and keeps what is reached", Refused(|p| if p.answer.number == 7 && p.answer.record > 4095 { p.accept_reached() })),
    large(Deps, "accepts a 7 that only dep of a type past 4,095 gives", Refused(|p| if p.told_dep_of() >= Some(4096) { p.accept_reached() })),
    large(Deps, "accepts a 7 that only dep of one of the last 256 types gives", Refused(|p| if p.told_dep_of() >= Some(LIMITS[TYPES] as u32 - 256) { p.accept_reached() })),
    large(Deps, "takes dep of the next type from 65,279 on", Accepted(|p| if let Some(place) = late_by_one(p.flat, LIMITS[TYPES] - 257) { p.refuse(7, EXPRESSIONS, place) })),
    // Check by itself.
    wrong("check passes a 7", Check(|_, answer| if answer.number == 7 { *answer = Answer::default() })),
    wrong("check tells the next record with a 4", Check(|_, answer| if answer.number == 4 { answer.record += 1 })),
    large(Past, "check passes one record above a limit", Check(|flat, answer| if answer.number == 2 && flat.records(answer.area as usize) == LIMITS[answer.area as usize] + 1 { *answer = Answer::default() })),
    large(Edge(MENTIONS), "check refuses 65,536 mentions", Check(|flat, answer| if flat.records(MENTIONS) == LIMITS[MENTIONS] { *answer = Refusal::new(2, MENTIONS, 0).answer() })),
    wrong("check counts what it accepts", Check(|flat, answer| if answer.number == 0 { answer.counts[TYPES] = flat.records(TYPES) as u32 })),
    wrong("check passes a type of N", Check(|flat, answer| if told(flat, answer) == [N; WIDTHS[TYPES]] { *answer = Answer::default() })),
    wrong("check refuses a start of N with 6", Check(|flat, answer| if let (0, Some((area, place))) = (answer.number, odd_span(flat, |start, _| start == N)) { *answer = Refusal::new(6, area, place).answer() })),
    // Map entries.
    wrong("lookup past the end of a map is 0", Lookup(|map, handle, answer| if handle as usize == map.len() { *answer = 0 })),
    wrong("lookup of N is 0", Lookup(|_, handle, answer| if handle == N { *answer = 0 })),
    large(Edge(TYPES), "lookup of handle 65,535", Lookup(|_, handle, answer| if handle as usize == LAST { *answer ^= 1 })),
    wrong("adjust past the end is 9", Adjust(|map, handle, answer| if handle as usize >= map.len() { answer[0] = 9 })),
    wrong("adjust of a dropped handle is 8", Adjust(|_, _, answer| if answer[0] == 9 { answer[0] = 8 })),
    wrong("adjust of a dropped handle gives 0 and not N", Adjust(|_, _, answer| if answer[0] == 9 { answer[1] = 0 })),
    wrong("adjust takes N - 1 in a map for N", Adjust(|_, _, answer| if *answer == [0, N - 1] { *answer = [9, N] })),
    large(Edge(TYPES), "adjust of handle 65,535", Adjust(|_, handle, answer| if handle as usize == LAST { answer[1] ^= 1 })),
    wrong("adjust takes the lower 16 bits of a handle", Adjust(|map, handle, answer| *answer = maps::adjust(map, handle & 0xffff))),
    wrong("a range to the map's end is refused", Range(|map, ends, answer| if ends[1] as usize == map.len() { *answer = [8, N, N] })),
    wrong("an empty range keeps its ends", Range(|_, ends, answer| if answer[0] == 0 && ends[0] == ends[1] { answer[1..].copy_from_slice(&ends) })),
    wrong("an empty range past the end is 0..0", Range(|map, ends, answer| if ends[0] == ends[1] && ends[0] as usize > map.len() { *answer = [0; 3] })),
    wrong("a reversed range is 0..0", Range(|map, ends, answer| if ends[0] > ends[1] && ends[0] as usize <= map.len() { *answer = [0; 3] })),
    wrong("a range of one live handle is empty", Range(|_, _, answer| if answer[0] == 0 && answer[2] == answer[1].wrapping_add(1) { answer[2] = answer[1] })),
    wrong("a range whose last handle is dropped ends one further", Range(|map, ends, answer| if answer[0] == 0 && answer[2] > 0 && map[ends[1] as usize - 1] == N { answer[2] += 1 })),
    large(Edge(CONSTANTS), "a range that ends at 65,536 ends one sooner", Range(|_, ends, answer| if answer[0] == 0 && ends[1] as usize == LIMITS[TYPES] { answer[2] = answer[2].saturating_sub(1) })),
    wrong("a range that ends at N is 0..0", Range(|_, ends, answer| if ends[1] == N { *answer = [0; 3] })),
    wrong("a range of more than 64 handles is cut", Range(|map, ends, answer| if answer[0] == 0 { *answer = maps::adjust_range(map, ends[0], ends[1].min(ends[0].saturating_add(64))) })),
    wrong("a range ends after the greatest number and not after the last", Range(|map, ends, answer| if answer[0] == 0 { answer[2] = past_greatest(map, ends) })),
];

impl Mutant {
    /// The right library, spoilt.
    pub fn over<'a>(&'a self, right: &'a dyn Library) -> Wrong<'a> {
        let spoil = &self.spoil;
        Wrong { right, spoil }
    }
}

pub struct Wrong<'a> {
    right: &'a dyn Library,
    spoil: &'a Spoil,
}

impl Library for Wrong<'_> {
    fn compact(&self, lent: &mut Lent, keep: bool) -> Answer {
        let before = lent.clone();
        let flat = before.flat();
        let mut answer = self.right.compact(lent, keep);
        let accepted = answer.number == 0;
        let mut pass = Pass {
            before: &before,
            flat: &flat,
            keep,
            lent,
            answer: &mut answer,
        };
        match self.spoil {
            Accepted(spoil) if accepted => spoil(&mut pass),
            Refused(spoil) if !accepted => spoil(&mut pass),
            Keeps(change) if accepted => {
                let (mut other, mut flag) = (flat.clone(), keep);
                change(&mut other, &mut flag);
                pass.leave(&closure::closure(&other, flag));
            }
            _ => {}
        }
        answer
    }

    fn check(&self, lent: &Lent) -> Answer {
        let mut answer = self.right.check(lent);
        if let Check(spoil) = self.spoil {
            spoil(&lent.flat(), &mut answer);
        }
        answer
    }

    fn lookup(&self, map: &[u32], handle: u32) -> u32 {
        let mut answer = self.right.lookup(map, handle);
        if let Lookup(spoil) = self.spoil {
            spoil(map, handle, &mut answer);
        }
        answer
    }

    fn adjust(&self, map: &[u32], handle: u32) -> [u32; 2] {
        let mut answer = self.right.adjust(map, handle);
        if let Adjust(spoil) = self.spoil {
            spoil(map, handle, &mut answer);
        }
        answer
    }

    fn adjust_range(&self, map: &[u32], start: u32, end: u32) -> [u32; 3] {
        let mut answer = self.right.adjust_range(map, start, end);
        if let Range(spoil) = self.spoil {
            spoil(map, [start, end], &mut answer);
        }
        answer
    }
}

/// When a wrong library was caught, and with which words.
pub struct Caught {
    /// The block of the run that caught it.
    pub block: u64,
    pub seconds: f64,
    pub what: String,
}

/// The blocks in which a wrong library must be caught, in an order that saves time: the large modules that show
/// it first, other large ones last.
fn blocks(mutant: &Mutant) -> Vec<u64> {
    let place = |block: &u64| match run::large_turn(*block).map(turn) {
        None => 1,
        shown if shown == mutant.shown_by => 0,
        Some(_) => 2,
    };
    let mut blocks: Vec<u64> = (0..BLOCKS).collect();
    blocks.sort_by_key(place);
    blocks
}

/// The modules that the right library has passed, by their seeds.
pub type Passed = BTreeSet<u64>;

/// Runs a wrong library until it is caught. The module that catches it must pass with the right one.
pub fn catch(right: &dyn Library, mutant: &Mutant, passed: &mut Passed) -> Result<Caught, String> {
    let begin = Instant::now();
    let failure = run::first_failure(&mutant.over(right), SEED, &blocks(mutant));
    let seconds = begin.elapsed().as_secs_f64();
    let failure = failure.ok_or(format!("not caught in {BLOCKS} blocks"))?;
    // Made maps have no seed of their own.
    let known = failure.seed != 0 && passed.contains(&failure.seed);
    if !known && !run::passes(right, SEED, &failure) {
        return Err(String::from("the right library fails there too"));
    }
    passed.insert(failure.seed);
    Ok(Caught {
        block: failure.block,
        seconds,
        what: failure.difference.what,
    })
}

/// The most characters of a report in the table.
const REPORTED: usize = 150;

/// Prints a table of the wrong libraries. True if each is caught.
pub fn table(right: &dyn Library) -> bool {
    println!("| Wrong | Block | Reported |\n|---|---|---|");
    let (mut caught, mut slowest) = (0, 0.0f64);
    let mut passed = Passed::new();
    for mutant in MUTANTS {
        let (block, what) = match catch(right, mutant, &mut passed) {
            Ok(how) => {
                caught += 1;
                slowest = slowest.max(how.seconds);
                (how.block.to_string(), how.what)
            }
            Err(why) => (String::from("-"), why),
        };
        let short: String = what.chars().take(REPORTED).collect();
        let dots = if short == what { "" } else { " ..." };
        println!("| {} | {block} | {short}{dots} |", mutant.name);
    }
    let all = MUTANTS.len();
    println!("{caught} of {all} wrong libraries caught, the slowest in {slowest:.1} s");
    caught == all
}
