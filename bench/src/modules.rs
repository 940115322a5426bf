//! The measured modules: n records in each of the five arenas, 4n words in each pool, and which of them live.
//!
//! What all of them share:
//!
//! - Handles go by place. Type t names types below t and overrides below t. Constant or override p names a type up to
//!   p and an init up to p / 2. Expression e names expressions below e and types, constants and overrides up to e.
//!   So each module is well ordered, and dep rises with the types to about half their places.
//! - A live record names live records only; a dead one names any.
//! - An optional handle is N in half of the cases, a global's in none. Three of four overrides have an init.
//! - One in four types without handles is abstract. No live constant has an abstract type.
//! - The pools are cut into runs at random places. Tags are random. The spans follow each other as in a text, each of 1
//!   to 64, so no two records have the same.
//!
//! The kinds, dealt at random but for record 0, which is a type without handles or a `Literal`:
//!
//! - [`Mix::Even`]: a quarter of the types of each kind. An eighth of the expressions `Compose`, the others evenly of
//!   the 31 other kinds of module scope.
//! - [`Mix::Sized`]: half of the types sized by an override, half of the expressions `Override`, one in each two
//!   neighbours; each override is named once so. The other types evenly of the three other kinds. An eighth of the
//!   expressions `Compose`, the others evenly of the 30 other kinds.
//!
//! What lives:
//!
//! - [`Sort::None`]: nothing. No record is named, there are no mentions, each global is of type 0 without init.
//!   `KeepUnused::Yes` keeps every global, so with it the globals and type 0 live.
//! - [`Sort::Half`]: half of each arena, at random, record 0 among them. The live constants are named; n mentions
//!   name the live globals and the live overrides; each live type and each live expression is the type and the init
//!   of one live global. The dead globals name live records, so that Yes adds them and nothing else. Dead constants
//!   are named where their type is abstract and one of the first 4,096; other dead records aren't named.
//! - [`Sort::All`]: all. The constants are named, and each type and each expression is that of one global. With Yes:
//!   the even mix, all overrides named, n mentions of any records. With No: a global lives by a mention alone, and
//!   the n mentions go to the n globals, so overrides live by types and expressions alone: the sized mix.

use crate::flat::*;
use crate::random::Random;

#[derive(Clone, Copy, Debug, PartialEq, Eq)]
pub enum Sort {
    None,
    Half,
    All,
}

#[derive(Clone, Copy, Debug, PartialEq, Eq)]
pub enum Mix {
    Even,
    Sized,
}

/// A module and what a pass over it keeps.
pub struct Measured {
    pub module: Module,
    pub kept: [u32; 7],
}

const SIZED: u32 = 2;
const STRUCT: u32 = 3;
const OVERRIDE: u32 = 6;
const COMPOSE: u32 = 8;
const SAMPLE: u32 = 15;
const QUERY: u32 = 17;

/// A dead constant is named where its type is abstract and below this: the harness can't tell more unnamed abstract
/// types apart for the published compactor, and makes the others concrete.
const ABSTRACT_TYPES: u32 = 4096;

/// The handles of each expression kind in order: type, constant, override, expression, maybe an expression.
pub const SLOTS: [&str; 34] = [
    "", "", "", "", "", "c", "o", "t", "t", "ee", "e", "e", "e", "", "e", "eeemm", "eemmm", "e",
    "e", "e", "ee", "eee", "e", "e", "emmm", "e", "e", "", "t", "t", "t", "e", "ee", "eee",
];

/// The module of a sort that is measured with a flag.
pub fn measured(sort: Sort, keep_unused: bool, n: usize) -> Measured {
    let mix = match (sort, keep_unused) {
        (Sort::All, false) => Mix::Sized,
        _ => Mix::Even,
    };
    let mut maker = Maker::new(sort, mix, n);
    maker.types();
    maker.constants();
    maker.overrides();
    maker.globals();
    maker.expressions();
    maker.mentions();
    maker.module.fit_maps();
    let kept = maker.kept(keep_unused);
    Measured {
        module: maker.module,
        kept,
    }
}

/// n types alone, for what dep costs: all but the first sized by the one override, each based on the type before it.
/// The last one is mentioned, so all live.
pub fn types_alone(n: usize) -> Measured {
    assert!(n > 0);
    let mut module = Module::default();
    let tail = |start: u32| Tail {
        start,
        length: 1,
        tag: start,
    };
    module.push(TYPES, &[0, 0, N, N], tail(0));
    for base in 0..n as u32 - 1 {
        module.push(TYPES, &[SIZED, 0, base, 0], tail(1 + base));
    }
    module.push(OVERRIDES, &[0, 0, N], tail(n as u32));
    module.areas[MENTIONS].extend([TYPES as u32, n as u32 - 1]);
    module.fit_maps();
    let kept = [n as u32, 0, 1, 0, 0, 0, 0];
    Measured { module, kept }
}

/// An expression without its tail.
type Body = [u32; BODIES[EXPRESSIONS]];

struct Maker {
    sort: Sort,
    mix: Mix,
    n: usize,
    random: Random,
    /// The live handles of each arena, rising.
    live: [Vec<u32>; 5],
    /// What names each override in the sized mix: the kind 2 types' and the `Override` expressions' overrides.
    sizers: Vec<u32>,
    named: Vec<u32>,
    module: Module,
    /// Where the next record's span starts.
    text: u32,
    /// The words of live runs.
    kept_pools: [u32; 2],
}

impl Maker {
    fn new(sort: Sort, mix: Mix, n: usize) -> Maker {
        assert!(n >= 64 && n.is_multiple_of(8));
        let mut random = Random::new(n as u64 + 10_000 * sort as u64 + 100_000 * mix as u64);
        let live = std::array::from_fn(|_| match sort {
            Sort::None => Vec::new(),
            Sort::Half => half(n, &mut random),
            Sort::All => (0..n as u32).collect(),
        });
        Maker {
            sort,
            mix,
            n,
            random,
            live,
            sizers: vec![N; n],
            named: vec![N; n],
            module: Module::default(),
            text: 0,
            kept_pools: [0; 2],
        }
    }

    /// Appends a record with the next span; one random word has the span's length and the tag.
    fn push(&mut self, arena: usize, body: &[u32]) {
        let random = self.random.word();
        let tail = Tail {
            start: self.text,
            length: 1 + (random >> 58) as u32,
            tag: random as u32,
        };
        self.text += tail.length;
        self.module.push(arena, body, tail);
    }

    fn lives(&self, area: usize, place: usize) -> bool {
        self.live[area].binary_search(&(place as u32)).is_ok()
    }

    /// A coin for a live record, 0 for a dead one.
    fn named_if(&mut self, live: bool) -> u32 {
        u32::from(live && self.random.one_in(2))
    }

    /// A handle below `end`, which isn't 0; a live one for a live record.
    fn pick(&mut self, area: usize, end: usize, live: bool) -> u32 {
        if !live {
            return self.random.below(end) as u32;
        }
        let among = self.live[area].partition_point(|&handle| (handle as usize) < end);
        self.live[area][self.random.below(among)]
    }

    fn pick_maybe(&mut self, end: usize, live: bool) -> u32 {
        match self.random.one_in(2) {
            true => N,
            false => self.pick(EXPRESSIONS, end, live),
        }
    }

    /// The places of an arena whose records name an override in the sized mix.
    fn special(&mut self) -> Vec<bool> {
        let mut special = vec![false; self.n];
        if self.mix == Mix::Sized {
            for first in (1..self.n - 1).step_by(2) {
                special[first + self.random.below(2)] = true;
            }
            special[self.n - 1] = true;
        }
        special
    }

    /// The kinds of an arena's records: the special kind at its places, the dealt ones at the others.
    fn deal(&mut self, special: &[bool], kind: u32, mut dealt: Vec<u32>) -> Vec<u32> {
        self.random.shuffle(&mut dealt);
        let mut dealt = dealt.into_iter();
        let deal = |place: usize| match place {
            0 => 0,
            _ if special[place] => kind,
            _ => dealt.next().expect("enough kinds are dealt"),
        };
        (0..self.n).map(deal).collect()
    }

    fn type_kinds(&mut self) -> Vec<u32> {
        let special = self.special();
        let kinds: &[u32] = match self.mix {
            Mix::Even => &[0, 1, SIZED, STRUCT],
            Mix::Sized => &[0, 1, STRUCT],
        };
        let count = special.iter().filter(|special| !**special).count() - 1;
        let dealt = kinds.iter().rev().copied().cycle().take(count).collect();
        self.deal(&special, SIZED, dealt)
    }

    fn expression_kinds(&mut self) -> Vec<u32> {
        let special = self.special();
        let even = self.mix == Mix::Even;
        let other = |kind: &u32| !matches!(*kind, COMPOSE | 13 | 27) && (even || *kind != OVERRIDE);
        let count = special.iter().filter(|special| !**special).count() - 1;
        let others = (0..34).filter(other).collect::<Vec<u32>>();
        let mut dealt = vec![COMPOSE; self.n / 8];
        dealt.extend(others.iter().cycle().take(count - self.n / 8));
        self.deal(&special, OVERRIDE, dealt)
    }

    /// Cuts a pool into so many runs.
    fn runs(&mut self, count: usize) -> Vec<usize> {
        let room = 4 * self.n;
        let mut cuts: Vec<usize> = (1..count).map(|_| self.random.below(room + 1)).collect();
        cuts.sort_unstable();
        cuts.push(room);
        let mut last = 0;
        let lengths = cuts.into_iter().map(|cut| {
            let length = cut - last;
            last = cut;
            length
        });
        lengths.collect()
    }

    /// In the sized mix, the i-th of the types and expressions that name an override names override i.
    fn assign_overrides(&mut self, types: &[u32], expressions: &[u32]) {
        let place = |(place, _): (usize, &u32)| place;
        let sized = types.iter().enumerate().filter(|(_, kind)| **kind == SIZED);
        let named = expressions.iter().enumerate();
        let named = named.filter(|(_, kind)| **kind == OVERRIDE);
        // A type may name overrides below it, an expression those up to it.
        let sized = sized.map(place).map(|place| (place - 1, place, true));
        let named = named.map(place).map(|place| (place, place, false));
        let mut users: Vec<_> = sized.chain(named).collect();
        users.sort_unstable();
        for (handle, (most, place, is_type)) in users.into_iter().enumerate() {
            assert!(handle <= most);
            let names = if is_type {
                &mut self.sizers
            } else {
                &mut self.named
            };
            names[place] = handle as u32;
        }
    }

    fn types(&mut self) {
        let kinds = self.type_kinds();
        let count = kinds.iter().filter(|kind| **kind == STRUCT).count();
        let mut runs = self.runs(count).into_iter();
        for (place, kind) in kinds.into_iter().enumerate() {
            let live = self.lives(TYPES, place);
            let [a, b] = match kind {
                0 => [N, N],
                1 => [self.pick(TYPES, place, live), N],
                SIZED => [self.pick(TYPES, place, live), self.sizer(place, live)],
                _ => self.run(TYPES, place, runs.next().expect("a run for each")),
            };
            let is_abstract = kind == 0 && place != 0 && self.random.one_in(4);
            let flags = self.named_if(live) + 2 * u32::from(is_abstract);
            self.push(TYPES, &[kind, flags, a, b]);
        }
    }

    fn sizer(&mut self, place: usize, live: bool) -> u32 {
        match self.mix {
            Mix::Even => self.pick(OVERRIDES, place, live),
            Mix::Sized => N,
        }
    }

    /// Fills the next run of a record's pool with older handles: its start and count.
    fn run(&mut self, area: usize, place: usize, count: usize) -> [u32; 2] {
        let live = self.lives(area, place);
        let (pool, kept) = match area {
            TYPES => (MEMBERS, 0),
            _ => (COMPONENTS, 1),
        };
        let start = self.module.areas[pool].len() as u32;
        for _ in 0..count {
            let handle = self.pick(area, place, live);
            self.module.areas[pool].push(handle);
        }
        self.kept_pools[kept] += if live { count as u32 } else { 0 };
        [start, count as u32]
    }

    fn is_abstract(&self, ty: u32) -> bool {
        self.module.areas[TYPES][ty as usize * WIDTHS[TYPES] + 1] >= 2
    }

    fn constants(&mut self) {
        for place in 0..self.n {
            let live = self.lives(CONSTANTS, place);
            let mut ty = self.pick(TYPES, place + 1, live);
            while live && self.is_abstract(ty) {
                ty = self.pick(TYPES, place + 1, live);
            }
            let init = self.pick(EXPRESSIONS, place / 2 + 1, live);
            let by_abstract = self.is_abstract(ty) && ty < ABSTRACT_TYPES;
            let named = live || (self.sort == Sort::Half && by_abstract);
            self.push(CONSTANTS, &[u32::from(named), ty, init]);
        }
    }

    fn overrides(&mut self) {
        for place in 0..self.n {
            let live = self.lives(OVERRIDES, place);
            let ty = self.pick(TYPES, place + 1, live);
            let init = match self.random.one_in(4) {
                true => N,
                false => self.pick(EXPRESSIONS, place / 2 + 1, live),
            };
            let named = match (self.sort, self.mix) {
                (Sort::All, Mix::Even) => 1,
                _ => self.named_if(live),
            };
            self.push(OVERRIDES, &[named, ty, init]);
        }
    }

    fn globals(&mut self) {
        let mut types = self.live[TYPES].clone();
        let mut inits = self.live[EXPRESSIONS].clone();
        self.random.shuffle(&mut types);
        self.random.shuffle(&mut inits);
        for place in 0..self.n {
            let [ty, init] = match self.sort {
                Sort::None => [0, N],
                _ if self.lives(GLOBALS, place) => {
                    [types.pop(), inits.pop()].map(|live| live.expect("as many as globals"))
                }
                _ => [
                    self.pick(TYPES, self.n, true),
                    self.pick(EXPRESSIONS, self.n, true),
                ],
            };
            self.push(GLOBALS, &[ty, init]);
        }
    }

    fn expressions(&mut self) {
        let kinds = self.expression_kinds();
        if self.mix == Mix::Sized {
            self.size_types(&kinds);
        }
        let count = kinds.iter().filter(|kind| **kind == COMPOSE).count();
        let mut runs = self.runs(count).into_iter();
        for (place, kind) in kinds.into_iter().enumerate() {
            let live = self.lives(EXPRESSIONS, place);
            let mut body = self.slots(kind, place, live);
            if kind == COMPOSE {
                let count = runs.next().expect("a run for each");
                body[2..4].copy_from_slice(&self.run(EXPRESSIONS, place, count));
            }
            self.push(EXPRESSIONS, &body);
        }
    }

    /// Writes the overrides of kind 2 types once the expressions' kinds are known.
    fn size_types(&mut self, expression_kinds: &[u32]) {
        let types = self.module.areas[TYPES].chunks(WIDTHS[TYPES]);
        let kinds: Vec<u32> = types.map(|ty| ty[0]).collect();
        self.assign_overrides(&kinds, expression_kinds);
        let types = self.module.areas[TYPES].chunks_mut(WIDTHS[TYPES]);
        for (ty, sizer) in types.zip(&self.sizers) {
            if ty[0] == SIZED {
                ty[3] = *sizer;
            }
        }
    }

    fn slots(&mut self, kind: u32, place: usize, live: bool) -> Body {
        let mut body = [N; BODIES[EXPRESSIONS]];
        body[0] = kind;
        for (slot, word) in SLOTS[kind as usize].bytes().zip(&mut body[1..]) {
            *word = match slot {
                b't' => self.pick(TYPES, place + 1, live),
                b'c' => self.pick(CONSTANTS, place + 1, live),
                b'o' if self.mix == Mix::Sized => self.named[place],
                b'o' => self.pick(OVERRIDES, place + 1, live),
                b'e' => self.pick(EXPRESSIONS, place, live),
                _ => self.pick_maybe(place, live),
            };
        }
        match kind {
            SAMPLE => self.sample(&mut body, place, live),
            QUERY => self.query(&mut body, place, live),
            _ => {}
        }
        body
    }

    fn sample(&mut self, body: &mut Body, place: usize, live: bool) {
        let form = self.random.below(5) as u32;
        body[6] = form;
        if form >= 2 {
            body[7] = self.pick(EXPRESSIONS, place, live);
        }
        if form == 4 {
            body[8] = self.pick(EXPRESSIONS, place, live);
        }
        body[9] = self.pick_maybe(place, live);
    }

    fn query(&mut self, body: &mut Body, place: usize, live: bool) {
        body[2] = self.random.below(4) as u32;
        if body[2] == 0 {
            body[3] = self.pick_maybe(place, live);
        }
    }

    fn mentions(&mut self) {
        let of = |area: usize, handles: &[u32]| -> Vec<[u32; 2]> {
            handles
                .iter()
                .map(|&handle| [area as u32, handle])
                .collect()
        };
        let mut mentions = match (self.sort, self.mix) {
            (Sort::None, _) => Vec::new(),
            (Sort::All, Mix::Even) => (0..self.n).map(|_| self.any()).collect(),
            (Sort::All, Mix::Sized) => of(GLOBALS, &self.live[GLOBALS]),
            (Sort::Half, _) => {
                let mut both = of(GLOBALS, &self.live[GLOBALS]);
                both.extend(of(OVERRIDES, &self.live[OVERRIDES]));
                both
            }
        };
        self.random.shuffle(&mut mentions);
        self.module.areas[MENTIONS] = mentions.into_flattened();
    }

    /// A mention of any record.
    fn any(&mut self) -> [u32; 2] {
        [
            self.random.below(5) as u32,
            self.random.below(self.n) as u32,
        ]
    }

    fn kept(&self, keep_unused: bool) -> [u32; 7] {
        let mut kept = [0; 7];
        for (kept, live) in kept.iter_mut().zip(&self.live) {
            *kept = live.len() as u32;
        }
        kept[MEMBERS] = self.kept_pools[0];
        kept[COMPONENTS] = self.kept_pools[1];
        if keep_unused {
            kept[GLOBALS] = self.n as u32;
            kept[TYPES] = kept[TYPES].max(1);
        }
        kept
    }
}

/// Half of the handles below n, 0 among them, rising.
fn half(n: usize, random: &mut Random) -> Vec<u32> {
    let mut handles: Vec<u32> = (1..n as u32).collect();
    random.shuffle(&mut handles);
    handles.truncate(n / 2 - 1);
    handles.push(0);
    handles.sort_unstable();
    handles
}
