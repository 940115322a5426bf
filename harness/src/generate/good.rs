//! Random modules that document 01 accepts, of every size up to its limits; and nearly good ones.
//!
//! A module grows element by element, and each new one names only what is there already. That makes it
//! well ordered. What need not be older is loosened afterwards.

use super::{set_rooms, tail};
use crate::expect::deps;
use crate::flat::*;
use crate::rng::Rng;

/// How large a module is.
#[derive(Clone, Copy, Debug, PartialEq, Eq)]
pub enum Size {
    Tiny,
    Small,
    Medium,
    /// Some of the areas at a number below the limit, each doubling of it as likely as another.
    Large,
    /// Some of the areas at their limit.
    Full,
}

/// Which of the elements that are there a new one names.
#[derive(Clone, Copy, PartialEq, Eq)]
pub(super) enum Style {
    Any,
    Young,
    Old,
    /// One that nothing names yet, as long as there is one.
    Loose,
    /// The same, and each type and each expression names one of its own area, mostly the last one.
    Chain,
}

pub(super) struct Grower<'a> {
    pub flat: Flat,
    pub rng: &'a mut Rng,
    pub style: Style,
    /// Records still to come, of areas 0 to 4.
    pub left: [usize; 5],
    /// Elements of areas 0 to 4 that nothing names yet; only for the styles that ask for them.
    pub loose: [Vec<u32>; 5],
    pub longest_run: usize,
    /// Whether the last type and the last expression fill their pools, and up to how many words.
    pub fill: bool,
    pub pool: usize,
    pub named: usize,
    /// Whether many types are sized by overrides and many overrides have an init.
    pub sized: bool,
}

/// A module that is accepted.
pub fn good(rng: &mut Rng, size: Size) -> Flat {
    let mut flat = grown(rng, size);
    loosen(&mut flat, rng);
    mention(&mut flat, rng, size);
    set_rooms(&mut flat, rng);
    flat
}

/// A module with some handles set to any in range; the check decides.
pub fn nearly(rng: &mut Rng, size: Size) -> Flat {
    let mut flat = good(rng, size);
    for _ in 0..rng.between(1, 4) {
        set_any_handle(&mut flat, rng);
    }
    flat
}

fn most_records(rng: &mut Rng, size: Size) -> usize {
    match size {
        Size::Tiny => 4,
        Size::Small => 20,
        Size::Medium => 300,
        Size::Large => rng.sized(LEAST_LARGE, LIMITS[TYPES]),
        Size::Full => LIMITS[TYPES],
    }
}

/// The fewest records of a large arena.
pub const LEAST_LARGE: usize = 64;

/// Words of a filled pool for each record of a large arena: as many as the limits have.
pub(super) const POOL_WORDS: usize = LIMITS[MEMBERS] / LIMITS[TYPES];

/// Elements that name older ones, without mentions.
fn grown(rng: &mut Rng, size: Size) -> Flat {
    let most = most_records(rng, size);
    let large = matches!(size, Size::Large | Size::Full);
    let mut left: [usize; 5] = std::array::from_fn(|_| match large {
        true if rng.one_in(2) => most,
        _ => rng.below(most + 1),
    });
    if left[TYPES] == 0 {
        left[CONSTANTS..=GLOBALS].fill(0);
    }
    if left[EXPRESSIONS] == 0 {
        left[CONSTANTS] = 0;
    }
    let style = *rng.pick(&[Style::Any, Style::Young, Style::Old]);
    let longest_run = *rng.pick(&[1, 3, 6]);
    let named = *rng.pick(&[2, 4, 40]);
    let sized = rng.one_in(2);
    let mut grower = Grower {
        flat: Flat::default(),
        rng,
        style,
        left,
        loose: Default::default(),
        longest_run,
        fill: large,
        pool: if large {
            POOL_WORDS * most
        } else {
            LIMITS[MEMBERS]
        },
        named,
        sized,
    };
    grower.grow_all();
    grower.flat
}

impl Grower<'_> {
    /// Grows the records that are to come.
    pub fn grow_all(&mut self) {
        while let Some(area) = self.next_area() {
            self.left[area] -= 1;
            self.grow(area);
            if let Style::Loose | Style::Chain = self.style {
                self.loose[area].push(self.flat.records(area) as u32 - 1);
            }
        }
    }

    /// An area that has records to come and something to name.
    fn next_area(&mut self) -> Option<usize> {
        let types = self.flat.records(TYPES) > 0;
        let expressions = self.flat.records(EXPRESSIONS) > 0;
        let ready = [true, types && expressions, types, types, true];
        let open = |area: usize| if ready[area] { self.left[area] } else { 0 };
        let all: usize = (0..5).map(open).sum();
        if all == 0 {
            return None;
        }
        let mut pick = self.rng.below(all);
        (0..5).find(|area| {
            let here = open(*area);
            let found = pick < here;
            pick = pick.saturating_sub(here);
            found
        })
    }

    fn grow(&mut self, area: usize) {
        let tail = tail(self.rng);
        match area {
            TYPES => self.grow_type(tail),
            EXPRESSIONS => self.grow_expression(tail),
            _ => {
                let ty = self.handle(TYPES);
                let init = match area {
                    CONSTANTS => self.handle(EXPRESSIONS),
                    _ if self.sized && self.flat.records(EXPRESSIONS) > 0 => {
                        self.handle(EXPRESSIONS)
                    }
                    _ => self.maybe(EXPRESSIONS),
                };
                let named = u32::from(self.rng.one_in(self.named));
                match area {
                    GLOBALS => self.flat.push_with(area, &[ty, init], tail),
                    _ => self.flat.push_with(area, &[named, ty, init], tail),
                }
            }
        }
    }

    /// A handle of an element that is there.
    fn handle(&mut self, area: usize) -> u32 {
        let loose = &mut self.loose[area];
        if !loose.is_empty() {
            return loose.swap_remove(self.rng.below(loose.len()));
        }
        let count = self.flat.records(area);
        let near = count.min(4);
        let place = match self.style {
            Style::Young if !self.rng.one_in(4) => count - 1 - self.rng.below(near),
            Style::Old if !self.rng.one_in(4) => self.rng.below(near),
            Style::Chain => count - 1,
            _ => self.rng.below(count),
        };
        place as u32
    }

    /// A handle or N.
    fn maybe(&mut self, area: usize) -> u32 {
        if self.flat.records(area) == 0 || self.rng.one_in(2) {
            N
        } else {
            self.handle(area)
        }
    }

    /// A run of older elements at the pool's end: its start and count.
    fn run(&mut self, area: usize) -> (u32, u32) {
        let pool = pool_of(area);
        let start = self.flat.areas[pool].len();
        let room = self.pool.saturating_sub(start);
        let count = if self.flat.records(area) == 0 {
            0
        } else if self.fill && self.left[area] == 0 {
            room
        } else {
            let least = usize::from(self.style == Style::Chain);
            self.rng.between(least, self.longest_run).min(room)
        };
        for _ in 0..count {
            let item = self.handle(area);
            self.flat.areas[pool].push(item);
        }
        (start as u32, count as u32)
    }

    fn grow_type(&mut self, tail: Tail) {
        let any = self.flat.records(TYPES) > 0;
        let last = self.fill && self.left[TYPES] == 0;
        let sizers = any && self.flat.records(OVERRIDES) > 0;
        let kind = match self.rng.below(5) {
            _ if last => 3,
            _ if self.sized && sizers && self.rng.one_in(2) => 2,
            1 if any => 1,
            2 if sizers => 2,
            3 => 3,
            _ => u32::from(any && self.style == Style::Chain),
        };
        let (a, b) = match kind {
            0 => (N, N),
            1 => (self.handle(TYPES), N),
            2 => (self.handle(TYPES), self.handle(OVERRIDES)),
            _ => self.run(TYPES),
        };
        let named = u32::from(self.rng.one_in(self.named));
        let is_abstract = if self.rng.one_in(5) { ABSTRACT } else { 0 };
        self.flat
            .push_with(TYPES, &[kind, named + is_abstract, a, b], tail);
    }

    fn grow_expression(&mut self, tail: Tail) {
        let last = self.fill && self.left[EXPRESSIONS] == 0;
        let any = self.flat.records(EXPRESSIONS) > 0;
        let kind = match self.rng.below32(EXPRESSION_KINDS as usize) {
            _ if last && self.flat.records(TYPES) > 0 => COMPOSE,
            _ if self.takes_loose(OVERRIDES, 2) => OVERRIDE,
            _ if self.takes_loose(CONSTANTS, 8) => CONSTANT,
            kind if self.possible(kind) => kind,
            _ if any && self.style == Style::Chain => LOAD,
            kind => kind % 5,
        };
        let mut record = [N; BODIES[EXPRESSIONS]];
        record[0] = kind;
        match kind {
            IMAGE_SAMPLE => record[1 + LEVEL_FORM] = self.rng.below32(5),
            IMAGE_QUERY => record[1 + QUERY_FORM] = self.rng.below32(4),
            _ => {}
        }
        for (number, slot) in expression_slots(&record).iter().enumerate() {
            record[1 + number] = match *slot {
                Slot::Need(area) => self.handle(area),
                Slot::May(area) => self.maybe(area),
                Slot::Start => {
                    let (start, count) = self.run(EXPRESSIONS);
                    record[2 + number] = count;
                    start
                }
                Slot::Form(_) | Slot::Count | Slot::Unused => record[1 + number],
            };
        }
        self.flat.push_with(EXPRESSIONS, &record, tail);
    }

    /// Whether an expression names a constant or an override that nothing names yet, once in `times`.
    fn takes_loose(&mut self, area: usize, times: usize) -> bool {
        self.style == Style::Loose && !self.loose[area].is_empty() && self.rng.one_in(times)
    }

    /// Whether there is something for each slot that such an expression needs; in a chain it must name
    /// an expression.
    fn possible(&self, kind: u32) -> bool {
        let mut record = [N; BODIES[EXPRESSIONS]];
        record[0] = kind;
        let slots = expression_slots(&record);
        let links = |slot: &Slot| matches!(slot, Slot::Need(EXPRESSIONS) | Slot::Start);
        kind != GLOBAL_VARIABLE
            && kind != CALL_RESULT
            && (self.style != Style::Chain || slots.iter().any(links))
            && slots.iter().all(|slot| match *slot {
                Slot::Need(area) => self.flat.records(area) > 0,
                _ => true,
            })
    }
}

/// The first type that each override sizes, and the first expression that names each constant and
/// each override.
struct Bounds {
    sizes: Vec<usize>,
    names: [Vec<usize>; 3],
}

impl Bounds {
    fn new(flat: &Flat) -> Self {
        let none = usize::MAX;
        let mut sizes = vec![none; flat.records(OVERRIDES)];
        for (place, ty) in flat.each(TYPES).enumerate() {
            if ty[0] == 2 {
                let first = &mut sizes[ty[3] as usize];
                *first = place.min(*first);
            }
        }
        let mut names = std::array::from_fn(|area| vec![none; flat.records(area)]);
        for (place, expression) in flat.each(EXPRESSIONS).enumerate() {
            let area = match expression[0] {
                CONSTANT => CONSTANTS,
                OVERRIDE => OVERRIDES,
                _ => continue,
            };
            let first = &mut names[area][expression[1] as usize];
            *first = place.min(*first);
        }
        Bounds { sizes, names }
    }
}

/// Names younger elements where no order asks for older ones, and shuffles what has no order.
fn loosen(flat: &mut Flat, rng: &mut Rng) {
    let deps = deps(flat);
    // dep never falls, so the types with dep below an expression are the first ones.
    let below = |bound: usize| deps.partition_point(|dep| *dep < Some(bound as u32));
    let (types, expressions) = (flat.records(TYPES), flat.records(EXPRESSIONS));
    for (place, expression) in flat.each_mut(EXPRESSIONS).enumerate() {
        if matches!(expression[0], 7 | 8 | 28..=30) && rng.one_in(2) {
            expression[1] = rng.below32(below(place));
        }
    }
    let bounds = Bounds::new(flat);
    for (place, record) in flat.each_mut(CONSTANTS).enumerate() {
        if rng.one_in(2) {
            let first = bounds.names[CONSTANTS][place];
            record[1] = rng.below32(below(first.min(N as usize)).min(types));
            record[2] = rng.below32(first.min(expressions));
        }
    }
    for (place, record) in flat.each_mut(OVERRIDES).enumerate() {
        if rng.one_in(2) {
            let first = bounds.names[OVERRIDES][place];
            let sized = bounds.sizes[place];
            record[1] = rng.below32(below(first.min(N as usize)).min(types).min(sized));
            if sized == usize::MAX && first > 0 && expressions > 0 {
                record[2] = rng.below32(first.min(expressions));
            }
        }
    }
    for record in flat.each_mut(GLOBALS) {
        record[0] = rng.below32(types);
        if expressions > 0 && rng.one_in(2) {
            record[1] = rng.below32(expressions);
        }
    }
    if rng.one_in(2) {
        for area in [CONSTANTS, OVERRIDES, GLOBALS] {
            shuffle(flat, area, rng);
        }
    }
}

/// Puts the records of an area into another order.
fn shuffle(flat: &mut Flat, area: usize, rng: &mut Rng) {
    let mut order: Vec<usize> = (0..flat.records(area)).collect();
    rng.shuffle(&mut order);
    let mut new = vec![0; order.len()];
    let mut words = Vec::with_capacity(flat.areas[area].len());
    for (to, from) in order.iter().enumerate() {
        new[*from] = to as u32;
        words.extend_from_slice(flat.record(area, *from));
    }
    flat.areas[area] = words;
    for ty in flat.each_mut(TYPES) {
        if area == OVERRIDES && ty[0] == 2 {
            ty[3] = new[ty[3] as usize];
        }
    }
    let kind = if area == CONSTANTS {
        CONSTANT
    } else {
        OVERRIDE
    };
    for expression in flat.each_mut(EXPRESSIONS) {
        if area != GLOBALS && expression[0] == kind {
            expression[1] = new[expression[1] as usize];
        }
    }
}

/// Adds mentions: none, few or many.
fn mention(flat: &mut Flat, rng: &mut Rng, size: Size) {
    let areas: Vec<usize> = (0..5).filter(|area| flat.records(*area) > 0).collect();
    if areas.is_empty() {
        return;
    }
    let most = match size {
        Size::Full if rng.one_in(2) => return fill_mentions(flat, rng, &areas, LIMITS[MENTIONS]),
        Size::Large | Size::Full => {
            let many = rng.sized(LEAST_LARGE, LIMITS[MENTIONS]);
            *rng.pick(&[0, 4, 100, many])
        }
        Size::Medium => *rng.pick(&[0, 4, 60]),
        Size::Tiny | Size::Small => *rng.pick(&[0, 2, 2, 6]),
    };
    let count = rng.below(most + 1);
    fill_mentions(flat, rng, &areas, count);
}

fn fill_mentions(flat: &mut Flat, rng: &mut Rng, areas: &[usize], count: usize) {
    for _ in 0..count {
        let area = *rng.pick(areas);
        let handle = rng.below32(flat.records(area));
        flat.push(MENTIONS, &[area as u32, handle]);
    }
}

/// Sets one handle of one record, or one word of a pool, to any in range.
fn set_any_handle(flat: &mut Flat, rng: &mut Rng) {
    let area = rng.below(7);
    if flat.areas[area].is_empty() {
        return;
    }
    let place = rng.below(flat.records(area));
    if area >= MEMBERS {
        let of = if area == MEMBERS { TYPES } else { EXPRESSIONS };
        flat.areas[area][place] = rng.below32(flat.records(of));
        return;
    }
    let slots = slots(area, flat.record(area, place));
    let number = rng.below(slots.len());
    if let Slot::Need(to) | Slot::May(to) = slots[number] {
        if flat.records(to) > 0 {
            let handle = rng.below32(flat.records(to));
            flat.record_mut(area, place)[FIRST_SLOT[area] + number] = handle;
        }
    }
}
