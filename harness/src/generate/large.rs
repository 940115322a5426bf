//! Large modules: at the limits, one past them, and of any size between.

use super::good::{good, Size, LEAST_LARGE};
use super::whole::{half, rootless, whole, ALL, CHAINS, FULL};
use super::{set_rooms, tail, Foretold};
use crate::flat::*;
use crate::rng::Rng;

/// How much of a module is kept.
#[derive(Clone, Copy, Debug, PartialEq, Eq)]
pub enum Share {
    None,
    Half,
    All,
}

/// What a turn makes.
#[derive(Clone, Copy, Debug, PartialEq, Eq)]
pub enum Turn {
    /// Each area with one record more than its limit.
    Past,
    /// All five arenas and both pools at their limit, and so much of them kept with No.
    Live(Share),
    /// Areas at their limit, with a fault in the last record.
    Faults,
    /// dep that rises at each 256th type up to the limit, and expressions that are just late enough or not.
    Deps,
    /// One area kept at its limit.
    Edge(usize),
    /// Chains of types and of expressions, kept at their limit.
    Chains,
    /// Some areas at their limit, with whatever is reached.
    Good,
    /// A module that is kept whole, of any size.
    Any,
}

/// The first turns: what the limits ask for.
pub const FIRST: [Turn; 16] = [
    Turn::Past,
    Turn::Live(Share::All),
    Turn::Live(Share::Half),
    Turn::Live(Share::None),
    Turn::Faults,
    Turn::Deps,
    Turn::Edge(TYPES),
    Turn::Edge(CONSTANTS),
    Turn::Edge(OVERRIDES),
    Turn::Edge(GLOBALS),
    Turn::Edge(EXPRESSIONS),
    Turn::Edge(MEMBERS),
    Turn::Edge(COMPONENTS),
    Turn::Edge(MENTIONS),
    Turn::Chains,
    Turn::Good,
];

/// The first turns come again after so many.
const AGAIN: u64 = 512;

/// The turn with this number.
pub fn turn(number: u64) -> Turn {
    let at = (number % AGAIN) as usize;
    FIRST.get(at).copied().unwrap_or(Turn::Any)
}

/// The modules of a turn, with what is foretold of them.
pub fn large(rng: &mut Rng, number: u64) -> Vec<(Flat, Foretold)> {
    let limit = LIMITS[TYPES];
    let flat = match turn(number) {
        Turn::Past => return (0..8).map(|area| past(rng, area)).collect(),
        Turn::Faults => return FAULTS.map(|fault| last(rng, fault)).to_vec(),
        Turn::Deps => return deps(rng),
        Turn::Live(Share::All) => whole(rng, ALL, limit, true),
        Turn::Live(Share::Half) => half(rng, limit),
        Turn::Live(Share::None) => rootless(rng, limit),
        Turn::Edge(area) => edge(rng, area, LIMITS[area]),
        Turn::Chains => whole(rng, CHAINS, limit, false),
        Turn::Good => good(rng, Size::Full),
        Turn::Any => {
            let records = rng.sized(LEAST_LARGE, limit);
            let at = (number / 2) as usize % FULL.len();
            whole(rng, at, records, number.is_multiple_of(2))
        }
    };
    vec![(flat, Foretold::Accepted)]
}

/// One record more than an area can have, and nothing else that is wrong.
fn past(rng: &mut Rng, area: usize) -> (Flat, Foretold) {
    let flat = edge(rng, area, LIMITS[area] + 1);
    (flat, Foretold::Refused(Refusal::new(2, area, 0)))
}

/// A module with so many records of one area, all of them kept with either flag, and few others.
fn edge(rng: &mut Rng, area: usize, count: usize) -> Flat {
    let mut maker = Maker {
        flat: Flat::default(),
        rng,
    };
    maker.leaf();
    maker.literal();
    match area {
        TYPES => {
            (2..count).for_each(|_| maker.leaf());
            let members: Vec<u32> = (0..count as u32 - 1).collect();
            maker.record(&members);
        }
        MEMBERS => quarters(count).for_each(|part| maker.record(&vec![0; part])),
        EXPRESSIONS => {
            (2..count).for_each(|_| maker.literal());
            let components: Vec<u32> = (0..count as u32 - 1).collect();
            maker.compose(&components);
        }
        COMPONENTS => quarters(count).for_each(|part| maker.compose(&vec![0; part])),
        CONSTANTS => (0..count).for_each(|_| maker.constant(1)),
        OVERRIDES => (0..count).for_each(|_| maker.sizer(N)),
        GLOBALS => (0..count).for_each(|_| maker.global()),
        _ => {
            maker.leaf();
            maker.literal();
            for _ in 0..2 {
                maker.constant(0);
                maker.sizer(N);
                maker.global();
            }
            // Of two records the second; the last mention is one that moves.
            (0..count).for_each(|number| maker.mention((number + 1) % 5, 1));
        }
    }
    if let OVERRIDES | GLOBALS = area {
        (0..count.min(LIMITS[MENTIONS])).for_each(|place| maker.mention(area, place));
    }
    let mut flat = maker.flat;
    set_rooms(&mut flat, rng);
    flat
}

/// Words that make a last record wrong: number, area, word of the record or of its run's pool, and what it
/// becomes. A handle of N - 1 is one that the published data types are not asked to hold.
const FAULTS: [(u32, usize, At, u32); 13] = [
    (4, TYPES, At::Word(1), 4),
    (4, CONSTANTS, At::Word(0), 2),
    (4, OVERRIDES, At::Word(0), 2),
    (4, EXPRESSIONS, At::Word(0), 34),
    (4, MENTIONS, At::Word(0), 5),
    (6, TYPES, At::Run, N - 1),
    (6, CONSTANTS, At::Word(1), N - 1),
    (6, OVERRIDES, At::Word(2), N - 1),
    (6, GLOBALS, At::Word(1), N - 1),
    (6, EXPRESSIONS, At::Run, N - 1),
    (6, MENTIONS, At::Word(1), N - 1),
    (7, TYPES, At::Run, LAST as u32),
    (7, EXPRESSIONS, At::Run, LAST as u32),
];

/// The last place of an arena at its limit.
pub const LAST: usize = LIMITS[TYPES] - 1;

#[derive(Clone, Copy)]
enum At {
    Word(usize),
    /// The last word of the record's run.
    Run,
}

/// A module with an area at its limit and a fault in its last record.
fn last(rng: &mut Rng, (number, area, at, to): (u32, usize, At, u32)) -> (Flat, Foretold) {
    let mut flat = edge(rng, area, LIMITS[area]);
    let record = flat.records(area) - 1;
    match at {
        At::Word(word) => flat.record_mut(area, record)[word] = to,
        At::Run => *flat.areas[pool_of(area)].last_mut().expect("it has a run") = to,
    }
    (flat, Foretold::Refused(Refusal::new(number, area, record)))
}

/// A number in four parts, so that runs start in the middle of a pool.
fn quarters(count: usize) -> impl Iterator<Item = usize> {
    let part = count / 4;
    [part, part, part, count - 3 * part].into_iter()
}

/// As many types stand between two that dep rises at.
const STEP: usize = 256;

/// Types at their limit, each `STEP`th sized by an override, so that dep rises there. The init is an expression
/// of the type before, and the next expression is one of the type itself: in the first module both are just
/// late enough. In the others the init is an expression of the type itself.
fn deps(rng: &mut Rng) -> Vec<(Flat, Foretold)> {
    let steps = LIMITS[TYPES] / STEP;
    let mut maker = Maker {
        flat: Flat::default(),
        rng,
    };
    maker.literal();
    for step in 0..steps {
        let first = (step * STEP) as u32;
        match step {
            0 => maker.leaf(),
            _ => maker.sized(2 * step as u32 - 1),
        }
        (1..STEP).for_each(|_| maker.leaf());
        if step > 0 {
            maker.zero(first - 1);
            maker.zero(first);
            maker.mention(EXPRESSIONS, 2 * step);
        }
    }
    let mut flat = maker.flat;
    set_rooms(&mut flat, rng);
    // At type 4,096 and at the last that dep rises at.
    let late = [4096 / STEP, steps - 1].map(|step| {
        let place = 2 * step - 1;
        let mut flat = flat.clone();
        flat.record_mut(EXPRESSIONS, place)[1] = (step * STEP) as u32;
        let refusal = Refusal::new(7, EXPRESSIONS, place);
        (flat, Foretold::Refused(refusal))
    });
    let mut list = vec![(flat, Foretold::Accepted)];
    list.extend(late);
    list
}

/// Makes records one by one.
struct Maker<'a> {
    flat: Flat,
    rng: &'a mut Rng,
}

impl Maker<'_> {
    fn push(&mut self, area: usize, words: &[u32]) {
        let tail = tail(self.rng);
        self.flat.push_with(area, words, tail);
    }

    fn leaf(&mut self) {
        self.push(TYPES, &[0, 0, N, N]);
    }

    /// A struct, which is mentioned.
    fn record(&mut self, members: &[u32]) {
        let start = self.flat.areas[MEMBERS].len() as u32;
        self.flat.areas[MEMBERS].extend_from_slice(members);
        self.push(TYPES, &[3, 0, start, members.len() as u32]);
        self.mention(TYPES, self.flat.records(TYPES) - 1);
    }

    /// An array of the first type, sized by a new override.
    fn sized(&mut self, init: u32) {
        let item = self.flat.records(OVERRIDES) as u32;
        self.sizer(init);
        self.push(TYPES, &[2, 0, 0, item]);
    }

    fn constant(&mut self, named: u32) {
        self.push(CONSTANTS, &[named, 0, 0]);
    }

    fn sizer(&mut self, init: u32) {
        self.push(OVERRIDES, &[0, 0, init]);
    }

    fn global(&mut self) {
        self.push(GLOBALS, &[0, N]);
    }

    fn expression(&mut self, kind: u32, slots: &[u32]) {
        let mut words = [N; BODIES[EXPRESSIONS]];
        words[0] = kind;
        words[1..=slots.len()].copy_from_slice(slots);
        self.push(EXPRESSIONS, &words);
    }

    fn literal(&mut self) {
        self.expression(0, &[]);
    }

    fn zero(&mut self, ty: u32) {
        self.expression(7, &[ty]);
    }

    /// A `Compose`, which is mentioned.
    fn compose(&mut self, components: &[u32]) {
        let start = self.flat.areas[COMPONENTS].len() as u32;
        self.flat.areas[COMPONENTS].extend_from_slice(components);
        self.expression(COMPOSE, &[0, start, components.len() as u32]);
        self.mention(EXPRESSIONS, self.flat.records(EXPRESSIONS) - 1);
    }

    fn mention(&mut self, area: usize, place: usize) {
        self.flat.push(MENTIONS, &[area as u32, place as u32]);
    }
}
