//! Good modules with one or two faults, each with the refusal it must give.
//!
//! A fault changes one word, one length or one map's length. What it gives is reasoned here from
//! document 01, apart from the restated check, and the two are held against each other.

use crate::expect::deps;
use crate::flat::*;
use crate::rng::Rng;

/// A sort of fault.
pub struct Fault {
    pub number: u32,
    pub name: &'static str,
    /// Moves where runs are thought to lie, so that two of these could undo each other.
    layout: bool,
    make: fn(&mut Damager) -> Option<Refusal>,
}

/// All sorts of faults.
#[rustfmt::skip]
pub const FAULTS: [Fault; 37] = [
    Fault { number: 1, name: "words past the last whole record", layout: false, make: Damager::length },
    Fault { number: 2, name: "more records than the limit", layout: false, make: Damager::limit },
    Fault { number: 3, name: "a map too short", layout: false, make: Damager::room },
    Fault { number: 4, name: "type kind above 3", layout: true, make: Damager::type_kind },
    Fault { number: 4, name: "type flags above 3", layout: false, make: Damager::type_flags },
    Fault { number: 4, name: "constant named above 1", layout: false, make: Damager::constant_named },
    Fault { number: 4, name: "override named above 1", layout: false, make: Damager::override_named },
    Fault { number: 4, name: "expression kind above 33", layout: true, make: Damager::expression_kind },
    Fault { number: 4, name: "level form above 4", layout: false, make: Damager::level_form },
    Fault { number: 4, name: "query form above 3", layout: false, make: Damager::query_form },
    Fault { number: 4, name: "mention area above 4", layout: false, make: Damager::mention_area },
    Fault { number: 4, name: "unused word of a type", layout: false, make: Damager::type_unused },
    Fault { number: 4, name: "unused slot of an expression", layout: false, make: Damager::expression_unused },
    Fault { number: 4, name: "x or y that the form doesn't name", layout: false, make: Damager::sample_unused },
    Fault { number: 4, name: "level of a count query", layout: false, make: Damager::query_unused },
    Fault { number: 4, name: "start of a run", layout: true, make: Damager::run_start },
    Fault { number: 4, name: "count of a run", layout: true, make: Damager::run_count },
    Fault { number: 4, name: "count of a run past 32 bits", layout: true, make: Damager::run_wraps },
    Fault { number: 4, name: "pool longer than its runs", layout: true, make: Damager::pool_longer },
    Fault { number: 5, name: "kind 13 or 27", layout: false, make: Damager::not_at_module_scope },
    Fault { number: 6, name: "needed slot is N", layout: false, make: Damager::needed_is_none },
    Fault { number: 6, name: "needed slot out of range", layout: false, make: Damager::needed_too_large },
    Fault { number: 6, name: "optional slot out of range", layout: false, make: Damager::optional_too_large },
    Fault { number: 6, name: "x or y that the form names is N", layout: false, make: Damager::sample_none },
    Fault { number: 6, name: "pool word is N", layout: false, make: Damager::pool_none },
    Fault { number: 6, name: "pool word out of range", layout: false, make: Damager::pool_too_large },
    Fault { number: 6, name: "mention's handle", layout: false, make: Damager::mention_handle },
    Fault { number: 7, name: "base not older", layout: false, make: Damager::base_order },
    Fault { number: 7, name: "member not older", layout: false, make: Damager::member_order },
    Fault { number: 7, name: "type of a type's override not older", layout: false, make: Damager::sizer_order },
    Fault { number: 7, name: "operand not older", layout: false, make: Damager::operand_order },
    Fault { number: 7, name: "component not older", layout: false, make: Damager::component_order },
    Fault { number: 7, name: "init behind a constant not older", layout: false, make: Damager::constant_init },
    Fault { number: 7, name: "init behind an override not older", layout: false, make: Damager::override_init },
    Fault { number: 7, name: "dep of a named type", layout: false, make: Damager::dep_named },
    Fault { number: 7, name: "dep of the type behind a constant", layout: false, make: Damager::dep_constant },
    Fault { number: 7, name: "dep of the type behind an override", layout: false, make: Damager::dep_override },
];

/// A module that takes faults.
pub struct Damager {
    flat: Flat,
    rng: Rng,
    /// Words that a fault has set, and areas whose length one has changed (at word `usize::MAX`).
    touched: Vec<(usize, usize)>,
}

impl Damager {
    fn new(flat: Flat, rng: &mut Rng) -> Self {
        let rng = Rng::new(rng.next());
        let touched = Vec::new();
        Damager { flat, rng, touched }
    }
}

/// A module with one fault of this sort, if it has a place for it, and the refusal.
pub fn damage_with(flat: Flat, rng: &mut Rng, fault: &Fault) -> Option<(Flat, Refusal)> {
    let mut damager = Damager::new(flat, rng);
    let refusal = (fault.make)(&mut damager)?;
    Some((damager.flat, refusal))
}

/// A module with one fault of any sort, the sort and the refusal. Where a module has no place for the
/// fault another one is made.
pub fn damage(
    rng: &mut Rng,
    mut module: impl FnMut(&mut Rng) -> Flat,
) -> Option<(Flat, &'static str, Refusal)> {
    let fault = pick(rng);
    for _ in 0..16 {
        let flat = module(rng);
        if let Some((flat, refusal)) = damage_with(flat, rng, fault) {
            return Some((flat, fault.name, refusal));
        }
    }
    None
}

/// A module with two faults that do not touch each other, often of one sort, and the refusal that comes
/// first.
pub fn damage_twice(flat: Flat, rng: &mut Rng) -> Option<(Flat, Refusal)> {
    let first = pick(rng);
    let second = if rng.one_in(4) { first } else { pick(rng) };
    let mut pair = [first, second];
    if pair[0].layout && pair[1].layout {
        return None;
    }
    // A later number is made first, while the module is still what its search takes it for.
    pair.sort_by_key(|fault| 7 - fault.number);
    let mut damager = Damager::new(flat, rng);
    let one = (pair[0].make)(&mut damager)?;
    let other = (pair[1].make)(&mut damager)?;
    Some((damager.flat, one.min(other)))
}

/// A sort of fault; the limits less often, since they make large modules.
fn pick(rng: &mut Rng) -> &'static Fault {
    let fault = rng.pick(&FAULTS);
    if fault.number == 2 && !rng.one_in(16) {
        return rng.pick(&FAULTS[3..]);
    }
    fault
}

impl Damager {
    /// Sets a word of a record that no fault has set before.
    fn set(&mut self, area: usize, place: usize, word: usize, value: u32) -> Option<()> {
        let at = place * WIDTHS[area] + word;
        if self.touched.contains(&(area, at)) {
            return None;
        }
        self.touched.push((area, at));
        self.flat.areas[area][at] = value;
        Some(())
    }

    /// Notes that an area's length changes, once.
    fn resize(&mut self, area: usize) -> Option<()> {
        let mark = (area, usize::MAX);
        if self.touched.contains(&mark) {
            return None;
        }
        self.touched.push(mark);
        Some(())
    }

    /// A record of an area, at random among those that fit.
    fn find(&mut self, area: usize, fits: impl Fn(&[u32]) -> bool) -> Option<usize> {
        self.find_at(area, |_, record| fits(record))
    }

    fn find_at(&mut self, area: usize, fits: impl Fn(usize, &[u32]) -> bool) -> Option<usize> {
        let records = self.flat.each(area).enumerate();
        let places: Vec<usize> = records
            .filter(|(place, record)| fits(*place, record))
            .map(|(place, _)| place)
            .collect();
        self.one_of(&places)
    }

    fn one_of<T: Copy>(&mut self, list: &[T]) -> Option<T> {
        (!list.is_empty()).then(|| *self.rng.pick(list))
    }

    /// A word above `bound`, N among them.
    fn above(&mut self, bound: u32) -> u32 {
        match self.rng.below(4) {
            0 => bound + 1,
            1 => N,
            2 => bound + 1 + self.rng.below32(60),
            _ => self.rng.word().max(bound + 1),
        }
    }

    /// A word that is no handle of an area with `count` records, and not N.
    fn too_large(&mut self, count: usize) -> u32 {
        let count = count as u32;
        match self.rng.below(4) {
            0 | 1 => count,
            2 => self.rng.word().clamp(count, N - 1),
            _ => N - 1,
        }
    }

    /// A word that is not N.
    fn not_none(&mut self) -> u32 {
        match self.rng.below(3) {
            0 => 0,
            1 => N - 1,
            _ => self.rng.below32(5),
        }
    }

    fn length(&mut self) -> Option<Refusal> {
        let area = *self.rng.pick(&[0, 1, 2, 3, 4, 7]);
        self.resize(area)?;
        let words = self.rng.between(1, WIDTHS[area] - 1);
        let length = self.flat.areas[area].len();
        if length > 0 && self.rng.one_in(2) {
            self.flat.areas[area].truncate(length - words);
        } else {
            let filler = self.not_none();
            self.flat.areas[area].resize(length + words, filler);
        }
        Some(Refusal::new(1, area, 0))
    }

    fn limit(&mut self) -> Option<Refusal> {
        let area = self.rng.below(8);
        self.resize(area)?;
        let records = LIMITS[area] + self.rng.between(1, 2);
        let filler = self.not_none();
        self.flat.areas[area].resize(records * WIDTHS[area], filler);
        Some(Refusal::new(2, area, 0))
    }

    fn room(&mut self) -> Option<Refusal> {
        let arenas: Vec<usize> = (0..5).filter(|area| self.flat.records(*area) > 0).collect();
        let area = self.one_of(&arenas)?;
        self.flat.rooms[area] = self.rng.below(self.flat.records(area));
        Some(Refusal::new(3, area, 0))
    }

    /// Sets one word of a record that fits; the fault is that record's.
    fn word(
        &mut self,
        number: u32,
        area: usize,
        word: usize,
        value: u32,
        fits: impl Fn(&[u32]) -> bool,
    ) -> Option<Refusal> {
        let place = self.find(area, fits)?;
        self.set(area, place, word, value)?;
        Some(Refusal::new(number, area, place))
    }

    fn type_kind(&mut self) -> Option<Refusal> {
        let kind = self.above(3);
        self.word(4, TYPES, 0, kind, |_| true)
    }

    fn type_flags(&mut self) -> Option<Refusal> {
        let flags = self.above(3);
        self.word(4, TYPES, 1, flags, |_| true)
    }

    fn constant_named(&mut self) -> Option<Refusal> {
        let named = self.above(1);
        self.word(4, CONSTANTS, 0, named, |_| true)
    }

    fn override_named(&mut self) -> Option<Refusal> {
        let named = self.above(1);
        self.word(4, OVERRIDES, 0, named, |_| true)
    }

    fn expression_kind(&mut self) -> Option<Refusal> {
        let kind = self.above(33);
        self.word(4, EXPRESSIONS, 0, kind, |_| true)
    }

    fn level_form(&mut self) -> Option<Refusal> {
        let form = self.above(4);
        self.word(4, EXPRESSIONS, 1 + LEVEL_FORM, form, |record| {
            record[0] == IMAGE_SAMPLE
        })
    }

    fn query_form(&mut self) -> Option<Refusal> {
        let form = self.above(3);
        self.word(4, EXPRESSIONS, 1 + QUERY_FORM, form, |record| {
            record[0] == IMAGE_QUERY
        })
    }

    fn mention_area(&mut self) -> Option<Refusal> {
        let area = self.above(4);
        self.word(4, MENTIONS, 0, area, |_| true)
    }

    /// Sets a slot of the given sort in a record of this area.
    fn slot(
        &mut self,
        number: u32,
        area: usize,
        value: impl Fn(&mut Self, Slot) -> u32,
        fits: impl Fn(&[u32], usize, Slot) -> bool,
    ) -> Option<Refusal> {
        // The slots of kinds 13 and 27 are not read.
        let unread = |record: &[u32]| {
            area == EXPRESSIONS && matches!(record[0], GLOBAL_VARIABLE | CALL_RESULT)
        };
        let mut found = Vec::new();
        for (place, record) in self.flat.each(area).enumerate() {
            for (at, slot) in slots(area, record).iter().enumerate() {
                if !unread(record) && fits(record, at, *slot) {
                    found.push((place, at, *slot));
                }
            }
        }
        let (place, at, slot) = self.one_of(&found)?;
        let value = value(self, slot);
        self.set(area, place, FIRST_SLOT[area] + at, value)?;
        Some(Refusal::new(number, area, place))
    }

    fn type_unused(&mut self) -> Option<Refusal> {
        let value = |damager: &mut Self, _| damager.not_none();
        self.slot(4, TYPES, value, |_, _, slot| slot == Slot::Unused)
    }

    fn expression_unused(&mut self) -> Option<Refusal> {
        let value = |damager: &mut Self, _| damager.not_none();
        self.slot(4, EXPRESSIONS, value, |_, _, slot| slot == Slot::Unused)
    }

    fn sample_unused(&mut self) -> Option<Refusal> {
        let value = |damager: &mut Self, _| damager.not_none();
        self.slot(4, EXPRESSIONS, value, |record, _, slot| {
            record[0] == IMAGE_SAMPLE && slot == Slot::Unused
        })
    }

    fn query_unused(&mut self) -> Option<Refusal> {
        let value = |damager: &mut Self, _| damager.not_none();
        self.slot(4, EXPRESSIONS, value, |record, at, slot| {
            record[0] == IMAGE_QUERY && at == 2 && slot == Slot::Unused
        })
    }

    /// The records of an area that have a run, and where their start stands.
    fn run_records(&self, area: usize) -> (Vec<usize>, usize) {
        let (kind, start) = if area == TYPES { (3, 2) } else { (COMPOSE, 2) };
        let records = self.flat.each(area).enumerate();
        let places = records.filter(|(_, record)| record[0] == kind);
        (places.map(|(place, _)| place).collect(), start)
    }

    fn run_area(&mut self) -> usize {
        *self.rng.pick(&[TYPES, EXPRESSIONS])
    }

    fn run_start(&mut self) -> Option<Refusal> {
        let area = self.run_area();
        let (places, word) = self.run_records(area);
        let place = self.one_of(&places)?;
        let start = self.flat.record(area, place)[word];
        let other = match self.rng.below(4) {
            0 => N,
            1 if start > 0 => start - 1,
            _ => start + 1 + self.rng.below32(3),
        };
        self.set(area, place, word, other)?;
        Some(Refusal::new(4, area, place))
    }

    /// A count one off moves the next run's start; the last run's then ends past the pool, or before
    /// its end.
    fn run_count(&mut self) -> Option<Refusal> {
        let area = self.run_area();
        let (places, start) = self.run_records(area);
        let at = self.rng.below(places.len().max(1));
        let place = *places.get(at)?;
        let count = self.flat.record(area, place)[start + 1];
        let more = count == 0 || self.rng.one_in(2);
        let other = if more { count + 1 } else { count - 1 };
        let end = self.flat.record(area, place)[start] as usize + other as usize;
        let past = end > self.flat.areas[pool_of(area)].len();
        self.set(area, place, start + 1, other)?;
        Some(match places.get(at + 1) {
            _ if past => Refusal::new(4, area, place),
            Some(next) => Refusal::new(4, area, *next),
            None => Refusal::new(4, pool_of(area), 0),
        })
    }

    /// A count so large that start plus count is small again in 32 bits.
    fn run_wraps(&mut self) -> Option<Refusal> {
        let area = self.run_area();
        let (places, start) = self.run_records(area);
        let place = self.one_of(&places)?;
        let from = self.flat.record(area, place)[start];
        let count = N - self.rng.below32(2) - from / 2;
        self.set(area, place, start + 1, count)?;
        Some(Refusal::new(4, area, place))
    }

    fn pool_longer(&mut self) -> Option<Refusal> {
        let pool = *self.rng.pick(&[MEMBERS, COMPONENTS]);
        self.resize(pool)?;
        let room = LIMITS[pool] - self.flat.areas[pool].len();
        if room == 0 {
            return None;
        }
        for _ in 0..self.rng.between(1, room.min(3)) {
            let word = self.not_none();
            self.flat.areas[pool].push(word);
        }
        Some(Refusal::new(4, pool, 0))
    }

    /// A record without a run becomes one of kind 13 or 27.
    fn not_at_module_scope(&mut self) -> Option<Refusal> {
        let kind = *self.rng.pick(&[GLOBAL_VARIABLE, CALL_RESULT]);
        self.word(5, EXPRESSIONS, 0, kind, |record| {
            record[0] != COMPOSE || record[3] == 0
        })
    }

    fn needed_is_none(&mut self) -> Option<Refusal> {
        let area = self.rng.below(5);
        self.slot(
            6,
            area,
            |_, _| N,
            |_, _, slot| matches!(slot, Slot::Need(_)),
        )
    }

    /// A handle past the end of the area that the slot is about.
    fn past(&mut self, slot: Slot) -> u32 {
        match slot {
            Slot::Need(to) | Slot::May(to) => self.too_large(self.flat.records(to)),
            _ => N,
        }
    }

    fn needed_too_large(&mut self) -> Option<Refusal> {
        let area = self.rng.below(5);
        self.slot(6, area, Self::past, |_, _, slot| {
            matches!(slot, Slot::Need(_))
        })
    }

    fn optional_too_large(&mut self) -> Option<Refusal> {
        let area = *self
            .rng
            .pick(&[OVERRIDES, GLOBALS, EXPRESSIONS, EXPRESSIONS]);
        self.slot(6, area, Self::past, |_, _, slot| {
            matches!(slot, Slot::May(_))
        })
    }

    fn sample_none(&mut self) -> Option<Refusal> {
        self.slot(
            6,
            EXPRESSIONS,
            |_, _| N,
            |record, at, slot| {
                record[0] == IMAGE_SAMPLE && at > LEVEL_FORM && matches!(slot, Slot::Need(_))
            },
        )
    }

    /// A word of a pool, and the record whose run it lies in.
    fn pool_word(&mut self, area: usize) -> Option<(usize, usize)> {
        let (places, start) = self.run_records(area);
        let mut words = Vec::new();
        for place in places {
            let record = self.flat.record(area, place);
            let from = record[start] as usize;
            words.extend((from..from + record[start + 1] as usize).map(|word| (place, word)));
        }
        self.one_of(&words)
    }

    fn pool_none(&mut self) -> Option<Refusal> {
        let area = self.run_area();
        let (owner, word) = self.pool_word(area)?;
        self.set(pool_of(area), word, 0, N)?;
        Some(Refusal::new(6, area, owner))
    }

    fn pool_too_large(&mut self) -> Option<Refusal> {
        let area = self.run_area();
        let (owner, word) = self.pool_word(area)?;
        let value = self.too_large(self.flat.records(area));
        self.set(pool_of(area), word, 0, value)?;
        Some(Refusal::new(6, area, owner))
    }

    fn mention_handle(&mut self) -> Option<Refusal> {
        let place = self.find(MENTIONS, |record| record[0] <= 4)?;
        let area = self.flat.record(MENTIONS, place)[0] as usize;
        let count = self.flat.records(area);
        let value = if self.rng.one_in(3) {
            N
        } else {
            self.too_large(count)
        };
        self.set(MENTIONS, place, 1, value)?;
        Some(Refusal::new(6, MENTIONS, place))
    }

    /// A handle of this area that is `from` or younger.
    fn not_older(&mut self, area: usize, from: usize) -> u32 {
        self.rng.between(from, self.flat.records(area) - 1) as u32
    }

    fn base_order(&mut self) -> Option<Refusal> {
        let place = self.find(TYPES, |record| matches!(record[0], 1 | 2))?;
        let base = self.not_older(TYPES, place);
        self.set(TYPES, place, 2, base)?;
        Some(Refusal::new(7, TYPES, place))
    }

    fn member_order(&mut self) -> Option<Refusal> {
        let (owner, word) = self.pool_word(TYPES)?;
        let member = self.not_older(TYPES, owner);
        self.set(MEMBERS, word, 0, member)?;
        Some(Refusal::new(7, TYPES, owner))
    }

    /// An override's type no older than a type that it sizes: a fault of the first such type.
    fn sizer_order(&mut self) -> Option<Refusal> {
        let place = self.find(TYPES, |record| record[0] == 2)?;
        let sizer = self.flat.record(TYPES, place)[3];
        let ty = self.not_older(TYPES, place);
        self.set(OVERRIDES, sizer as usize, 1, ty)?;
        let mut sized = self.flat.each(TYPES);
        let first = sized.position(|record| record[0] == 2 && record[3] == sizer)?;
        Some(Refusal::new(7, TYPES, first))
    }

    fn operand_order(&mut self) -> Option<Refusal> {
        let mut found = Vec::new();
        for (place, record) in self.flat.each(EXPRESSIONS).enumerate() {
            for (at, slot) in expression_slots(record).iter().enumerate() {
                if let Slot::Need(EXPRESSIONS) | Slot::May(EXPRESSIONS) = *slot {
                    found.push((place, at));
                }
            }
        }
        let (place, at) = self.one_of(&found)?;
        let operand = self.not_older(EXPRESSIONS, place);
        self.set(EXPRESSIONS, place, 1 + at, operand)?;
        Some(Refusal::new(7, EXPRESSIONS, place))
    }

    fn component_order(&mut self) -> Option<Refusal> {
        let (owner, word) = self.pool_word(EXPRESSIONS)?;
        let component = self.not_older(EXPRESSIONS, owner);
        self.set(COMPONENTS, word, 0, component)?;
        Some(Refusal::new(7, EXPRESSIONS, owner))
    }

    /// The first expression up to `last` that names this constant or override.
    fn first_naming(&self, kind: u32, handle: u32, last: usize) -> Option<usize> {
        let mut all = self.flat.each(EXPRESSIONS).take(last + 1);
        all.position(|record| record[0] == kind && record[1] == handle)
    }

    /// An init no older than an expression that names its constant: a fault of the first one that
    /// names it.
    fn constant_init(&mut self) -> Option<Refusal> {
        let place = self.find(EXPRESSIONS, |record| record[0] == CONSTANT)?;
        let constant = self.flat.record(EXPRESSIONS, place)[1];
        let init = self.not_older(EXPRESSIONS, place);
        self.set(CONSTANTS, constant as usize, 2, init)?;
        let first = self.first_naming(CONSTANT, constant, place)?;
        Some(Refusal::new(7, EXPRESSIONS, first))
    }

    /// Which overrides size a type.
    fn sizers(&self) -> Vec<bool> {
        let mut sizers = vec![false; self.flat.records(OVERRIDES)];
        for record in self.flat.each(TYPES) {
            if record[0] == 2 {
                sizers[record[3] as usize] = true;
            }
        }
        sizers
    }

    /// The same for an override that sizes no type, so that dep stays.
    fn override_init(&mut self) -> Option<Refusal> {
        let sizers = self.sizers();
        let place = self.find(EXPRESSIONS, |record| {
            record[0] == OVERRIDE && !sizers[record[1] as usize]
        })?;
        let item = self.flat.record(EXPRESSIONS, place)[1];
        let init = self.not_older(EXPRESSIONS, place);
        self.set(OVERRIDES, item as usize, 2, init)?;
        let first = self.first_naming(OVERRIDE, item, place)?;
        Some(Refusal::new(7, EXPRESSIONS, first))
    }

    /// An expression that fits and that some type's dep is not below. dep never falls, so the last type's
    /// is the largest.
    fn find_early(&mut self, fits: impl Fn(&[u32]) -> bool) -> Option<usize> {
        let largest = deps(&self.flat).last().copied()?;
        self.find_at(EXPRESSIONS, |place, record| {
            fits(record) && largest >= Some(place as u32)
        })
    }

    /// A type whose dep is not below this expression.
    fn late_type(&mut self, place: usize) -> Option<u32> {
        let deps = deps(&self.flat);
        let late = |ty: &usize| deps[*ty] >= Some(place as u32);
        let types: Vec<usize> = (0..deps.len()).filter(late).collect();
        self.one_of(&types).map(|ty| ty as u32)
    }

    fn dep_named(&mut self) -> Option<Refusal> {
        let place = self.find_early(|record| matches!(record[0], 7 | 8 | 28..=30))?;
        let ty = self.late_type(place)?;
        self.set(EXPRESSIONS, place, 1, ty)?;
        Some(Refusal::new(7, EXPRESSIONS, place))
    }

    fn dep_constant(&mut self) -> Option<Refusal> {
        let place = self.find_early(|record| record[0] == CONSTANT)?;
        let constant = self.flat.record(EXPRESSIONS, place)[1];
        let ty = self.late_type(place)?;
        self.set(CONSTANTS, constant as usize, 1, ty)?;
        let first = self.first_naming(CONSTANT, constant, place)?;
        Some(Refusal::new(7, EXPRESSIONS, first))
    }

    /// The same for an override that sizes no type, so that the types stay well ordered.
    fn dep_override(&mut self) -> Option<Refusal> {
        let sizers = self.sizers();
        let place =
            self.find_early(|record| record[0] == OVERRIDE && !sizers[record[1] as usize])?;
        let item = self.flat.record(EXPRESSIONS, place)[1];
        let ty = self.late_type(place)?;
        self.set(OVERRIDES, item as usize, 1, ty)?;
        let first = self.first_naming(OVERRIDE, item, place)?;
        Some(Refusal::new(7, EXPRESSIONS, first))
    }
}
