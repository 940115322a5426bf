//! Small modules that together reach each kind, form, slot, flag, road and refusal.

use crate::expect::expect_check;
use crate::flat::*;
use crate::generate::damaged::{damage_with, FAULTS};
use crate::rng::Rng;
use crate::roads::{Road, ROADS};

/// A module to record, with what it is for.
pub struct Wanted {
    pub what: String,
    pub keep: bool,
    pub flat: Flat,
    /// The roads of its mentions, where they are what it is for.
    pub roads: Option<Vec<Road>>,
}

/// A module while it is made; each record gets the next number as its tag, and a span of its own.
#[derive(Clone, Default)]
struct Maker {
    flat: Flat,
    tag: u32,
}

impl Maker {
    /// The tail of the next record: the span is no other record's, and some have N or 0 in it.
    fn tail(&self) -> Tail {
        let tag = self.tag;
        match tag % 6 {
            3 => [0, tag, tag],
            4 => [N, tag, tag],
            5 => [tag, N, tag],
            _ => [10 * tag, tag % 4, tag],
        }
    }

    fn push(&mut self, area: usize, words: &[u32]) -> u32 {
        self.tag += 1;
        self.flat.push_with(area, words, self.tail());
        self.flat.records(area) as u32 - 1
    }

    fn leaf(&mut self, flags: u32) -> u32 {
        self.push(TYPES, &[0, flags, N, N])
    }

    fn run(&mut self, area: usize, items: &[u32]) -> [u32; 2] {
        let pool = &mut self.flat.areas[pool_of(area)];
        let start = pool.len() as u32;
        pool.extend(items);
        [start, items.len() as u32]
    }

    fn record(&mut self, flags: u32, members: &[u32]) -> u32 {
        let [start, count] = self.run(TYPES, members);
        self.push(TYPES, &[3, flags, start, count])
    }

    fn constant(&mut self, named: u32, ty: u32, init: u32) -> u32 {
        self.push(CONSTANTS, &[named, ty, init])
    }

    fn sizer(&mut self, named: u32, ty: u32, init: u32) -> u32 {
        self.push(OVERRIDES, &[named, ty, init])
    }

    fn global(&mut self, ty: u32, init: u32) -> u32 {
        self.push(GLOBALS, &[ty, init])
    }

    fn expression(&mut self, kind: u32, slots: &[u32]) -> u32 {
        let mut words = [N; BODIES[EXPRESSIONS]];
        words[0] = kind;
        words[1..=slots.len()].copy_from_slice(slots);
        self.push(EXPRESSIONS, &words)
    }

    fn literal(&mut self) -> u32 {
        self.expression(0, &[])
    }

    fn compose(&mut self, ty: u32, components: &[u32]) -> u32 {
        let [start, count] = self.run(EXPRESSIONS, components);
        self.expression(COMPOSE, &[ty, start, count])
    }

    fn mention(&mut self, area: usize, handle: u32) {
        self.flat.push(MENTIONS, &[area as u32, handle]);
    }

    fn wanted(mut self, what: impl Into<String>, keep: bool, roads: Option<Vec<Road>>) -> Wanted {
        self.flat.fit_rooms();
        let (what, flat) = (what.into(), self.flat);
        Wanted {
            what,
            keep,
            flat,
            roads,
        }
    }
}

/// All modules to record.
pub fn all(seed: u64) -> Vec<Wanted> {
    let mut list = Vec::new();
    type_kinds(&mut list);
    expression_kinds(&mut list);
    inits(&mut list);
    on_roads(&mut list);
    table(&mut list, &INTERPLAY);
    table(&mut list, &REFUSED_HERE);
    refusals(&mut list, seed);
    list
}

const FLAGS: [&str; 2] = ["No", "Yes"];

/// Each type kind with each flag, once alone and once mentioned.
fn type_kinds(list: &mut Vec<Wanted>) {
    for flags in 0..4 {
        for form in 0..6 {
            for keep in [false, true] {
                let mut maker = Maker::default();
                let (dropped, base) = (maker.leaf(0), maker.leaf(0));
                maker.literal();
                let init = maker.literal();
                let item = match form {
                    2 => maker.sizer(0, dropped, init),
                    _ => 0,
                };
                let ty = match form {
                    0 => maker.leaf(flags),
                    1 => maker.push(TYPES, &[1, flags, base, N]),
                    2 => maker.push(TYPES, &[2, flags, base, item]),
                    _ => {
                        maker.record(0, &[dropped]);
                        maker.record(flags, &[base, dropped][..form - 3])
                    }
                };
                let mentioned = (flags as usize + form) % 2 == usize::from(keep);
                if mentioned {
                    maker.mention(TYPES, ty);
                }
                let kind = form.min(3);
                let how = if mentioned { "mentioned" } else { "alone" };
                let flag = FLAGS[usize::from(keep)];
                let what = format!("type kind {kind} flags {flags}, {how}, {flag}");
                list.push(maker.wanted(what, keep, None));
            }
        }
    }
}

/// Each expression kind and form with each optional slot given and not; kept, and dropped.
fn expression_kinds(list: &mut Vec<Wanted>) {
    for kind in (0..EXPRESSION_KINDS).filter(|kind| !matches!(kind, 13 | 27)) {
        let forms = match kind {
            IMAGE_SAMPLE => 5,
            IMAGE_QUERY => 4,
            COMPOSE => 3,
            OVERRIDE => 2,
            _ => 1,
        };
        for form in 0..forms {
            for given in option_masks(kind, form) {
                for keep in [false, true] {
                    let mut maker = Maker::default();
                    let own = one_expression(&mut maker, kind, form, given);
                    if !keep {
                        maker.mention(EXPRESSIONS, own);
                    }
                    let fate = if keep { "dropped, Yes" } else { "kept, No" };
                    let what =
                        format!("expression kind {kind} form {form} options {given:b}, {fate}");
                    list.push(maker.wanted(what, keep, None));
                }
            }
        }
    }
}

/// Which optional slots are given: none, all, and each alone.
fn option_masks(kind: u32, form: u32) -> Vec<u32> {
    let options = match kind {
        IMAGE_SAMPLE | 16 | 24 => 3,
        IMAGE_QUERY if form == 0 => 1,
        _ => 0,
    };
    let all = (1 << options) - 1;
    let mut masks = vec![0];
    if options > 1 && (kind != IMAGE_SAMPLE || form == 0) {
        masks.extend((0..options).map(|option| 1 << option));
    }
    if options > 0 {
        masks.push(all);
    }
    masks
}

/// An expression of this kind over elements of its own, with dropped ones before and between.
fn one_expression(maker: &mut Maker, kind: u32, form: u32, given: u32) -> u32 {
    maker.leaf(0);
    let ty = maker.leaf(0);
    maker.literal();
    let mut record = [N; BODIES[EXPRESSIONS]];
    record[0] = kind;
    match kind {
        IMAGE_SAMPLE => record[1 + LEVEL_FORM] = form,
        IMAGE_QUERY => record[1 + QUERY_FORM] = form,
        _ => {}
    }
    let mut options = 0;
    for (number, slot) in expression_slots(&record).iter().enumerate() {
        let wanted = match *slot {
            Slot::May(_) => {
                options += 1;
                given >> (options - 1) & 1 == 1
            }
            Slot::Need(_) => true,
            _ => false,
        };
        if let (Slot::Need(to) | Slot::May(to), true) = (*slot, wanted) {
            record[1 + number] = operand(maker, to, ty, form);
        }
        if number == 1 {
            maker.literal();
        }
    }
    if kind == COMPOSE {
        let items: Vec<u32> = (0..form).map(|_| maker.literal()).collect();
        let junk = maker.literal();
        maker.compose(ty, &[junk]);
        return maker.compose(ty, &items);
    }
    maker.expression(kind, &record[FIRST_SLOT[EXPRESSIONS]..])
}

/// An element of its own for a slot.
fn operand(maker: &mut Maker, area: usize, ty: u32, form: u32) -> u32 {
    match area {
        TYPES => ty,
        CONSTANTS => {
            let init = maker.literal();
            maker.constant(0, ty, init);
            maker.constant(0, ty, init)
        }
        OVERRIDES => {
            let init = if form == 0 { maker.literal() } else { N };
            maker.sizer(0, ty, init);
            maker.sizer(0, ty, init)
        }
        _ => maker.literal(),
    }
}

/// Constants, overrides and globals: named or not, abstract or not, with an init and without.
fn inits(list: &mut Vec<Wanted>) {
    for number in 0..20 {
        let keep = number % 2 == 1;
        let (one, two) = (number / 2 % 2, number / 4 % 2);
        let mut maker = Maker::default();
        maker.leaf(0);
        maker.literal();
        let ty = maker.leaf(if number < 8 { ABSTRACT * two } else { 0 });
        let init = maker.literal();
        let what = match number / 8 {
            0 => {
                maker.constant(one, ty, init);
                format!("constant, named {one}, abstract {two}")
            }
            1 => {
                maker.sizer(one, ty, if two == 1 { init } else { N });
                format!("override, named {one}, init {two}")
            }
            _ => {
                maker.global(ty, if one == 1 { init } else { N });
                format!("global, init {one}")
            }
        };
        let what = format!("{what}, {}", FLAGS[usize::from(keep)]);
        list.push(maker.wanted(what, keep, None));
    }
}

/// Each road, with elements before that are dropped.
fn on_roads(list: &mut Vec<Wanted>) {
    for (road, name) in ROADS {
        for keep in [false, true] {
            let mesh = matches!(
                road,
                Road::MeshVertex
                    | Road::MeshPrimitive
                    | Road::MeshOutput
                    | Road::MaxVertices
                    | Road::MaxPrimitives
            );
            let mut maker = Maker::default();
            let ty = [maker.leaf(0), maker.leaf(0)][1];
            maker.literal();
            let init = maker.literal();
            maker.constant(0, 0, 0);
            let constant = maker.constant(0, ty, init);
            maker.sizer(0, 0, 0);
            let item = maker.sizer(0, ty, init);
            if !keep {
                maker.global(0, 0);
            }
            let global = maker.global(ty, init);
            let handles = [ty, constant, item, global, init];
            let roads = if mesh { mesh_roads(road) } else { vec![road] };
            for road in &roads {
                let area = area_of(*road);
                maker.mention(area, handles[area]);
            }
            let what = format!("mention by {name}, {}", FLAGS[usize::from(keep)]);
            list.push(maker.wanted(what, keep, Some(roads)));
        }
    }
}

/// A mesh info's output variable and types, and the field that it is about.
fn mesh_roads(road: Road) -> Vec<Road> {
    let mut roads = vec![Road::MeshVertex, Road::MeshPrimitive, Road::MeshOutput];
    if !roads.contains(&road) {
        roads.push(road);
    }
    roads
}

fn area_of(road: Road) -> usize {
    match road {
        Road::Constant => CONSTANTS,
        Road::Override => OVERRIDES,
        Road::Global | Road::TaskPayload | Road::MeshOutput => GLOBALS,
        Road::Workgroup | Road::MaxVertices | Road::MaxPrimitives => EXPRESSIONS,
        _ => TYPES,
    }
}

/// What a module is for, and how it is made.
type Made = (&'static str, fn(&mut Maker));

/// Types and expressions that need each other through overrides and constants.
const INTERPLAY: [Made; 6] = [
    ("everything empty", |_| {}),
    ("case 1 of document 01", |maker| {
        let base = maker.leaf(0);
        maker.literal();
        let init = maker.literal();
        let item = maker.sizer(0, base, init);
        maker.push(TYPES, &[2, NAMED, base, item]);
    }),
    ("array sized over an array sized by an override", |maker| {
        let base = maker.leaf(0);
        let first = maker.literal();
        let item = maker.sizer(0, base, first);
        let array = maker.push(TYPES, &[2, 0, base, item]);
        let over = maker.push(TYPES, &[1, 0, array, N]);
        let zero = maker.expression(7, &[over]);
        let other = maker.sizer(0, base, zero);
        let last = maker.push(TYPES, &[2, 0, base, other]);
        maker.literal();
        maker.mention(TYPES, last);
    }),
    ("named constant over an unnamed one", |maker| {
        let (ty, late) = (maker.leaf(0), maker.leaf(0));
        let init = maker.literal();
        let constant = maker.constant(0, late, init);
        let named = maker.expression(CONSTANT, &[constant]);
        maker.constant(1, ty, named);
        maker.literal();
    }),
    ("runs that move in both pools, equal mentions", |maker| {
        let (one, two) = (maker.leaf(0), maker.leaf(0));
        maker.record(0, &[one]);
        let kept = maker.record(0, &[two, two]);
        maker.record(0, &[]);
        maker.literal();
        let item = maker.literal();
        maker.compose(one, &[item]);
        let own = maker.compose(kept, &[item, item, item]);
        maker.mention(EXPRESSIONS, own);
        maker.mention(EXPRESSIONS, own);
    }),
    ("global over a chain of expressions", |maker| {
        let ty = [maker.leaf(0), maker.leaf(0)][1];
        let mut own = maker.literal();
        for kind in [14, 19, 26] {
            maker.literal();
            own = maker.expression(kind, &[own]);
        }
        maker.global(ty, own);
        maker.mention(GLOBALS, 0);
    }),
];

/// Modules that are refused here and that the data types of the Rust can hold, with what it does.
const REFUSED_HERE: [Made; 8] = [
    ("a base and its base younger", |maker| {
        maker.push(TYPES, &[1, NAMED, 1, N]);
        maker.push(TYPES, &[1, 0, 2, N]);
        maker.leaf(0);
    }),
    ("an operand younger, which names a type", |maker| {
        maker.leaf(0);
        maker.expression(14, &[1]);
        maker.expression(7, &[0]);
        maker.mention(EXPRESSIONS, 0);
    }),
    ("dep of a type that has a base", |maker| {
        maker.leaf(0);
        maker.sizer(0, 0, 1);
        maker.push(TYPES, &[2, 0, 0, 0]);
        maker.push(TYPES, &[1, 0, 0, N]);
        maker.expression(7, &[2]);
        maker.literal();
        maker.mention(EXPRESSIONS, 0);
    }),
    ("a type that is its own base", |maker| {
        maker.push(TYPES, &[1, 0, 0, N]);
    }),
    ("an expression over its own constant", |maker| {
        maker.leaf(0);
        maker.constant(0, 0, 0);
        maker.expression(CONSTANT, &[0]);
        maker.mention(EXPRESSIONS, 0);
    }),
    ("dep of a leaf", |maker| {
        maker.leaf(0);
        maker.sizer(0, 0, 1);
        maker.push(TYPES, &[2, 0, 0, 0]);
        maker.leaf(0);
        maker.expression(7, &[2]);
        maker.literal();
        maker.mention(EXPRESSIONS, 0);
    }),
    ("GlobalVariable at module scope", |maker| {
        maker.leaf(0);
        maker.global(0, N);
        maker.expression(GLOBAL_VARIABLE, &[0]);
        maker.mention(EXPRESSIONS, 0);
    }),
    ("a base out of range in a type that goes", |maker| {
        maker.push(TYPES, &[1, 0, 5, N]);
    }),
];

/// The modules of a table, with both flags.
fn table(list: &mut Vec<Wanted>, modules: &[Made]) {
    for (what, make) in modules {
        for keep in [false, true] {
            let mut maker = Maker::default();
            make(&mut maker);
            let what = format!("{what}, {}", FLAGS[usize::from(keep)]);
            list.push(maker.wanted(what, keep, None));
        }
    }
}

/// A module with something of each sort, to take faults.
fn rich() -> Flat {
    let mut maker = Maker::default();
    let base = maker.leaf(NAMED);
    let first = maker.literal();
    let plain = maker.sizer(0, base, N);
    let constant = maker.constant(1, base, first);
    maker.expression(CONSTANT, &[constant]);
    maker.expression(OVERRIDE, &[plain]);
    maker.expression(7, &[base]);
    let init = maker.literal();
    let item = maker.sizer(1, base, init);
    maker.push(TYPES, &[1, ABSTRACT, base, N]);
    let array = maker.push(TYPES, &[2, 0, base, item]);
    let pair = maker.record(0, &[base, array]);
    maker.global(pair, init);
    maker.compose(pair, &[first, init]);
    maker.expression(IMAGE_SAMPLE, &[first, first, first, N, N, 2, init, N, N]);
    maker.expression(IMAGE_QUERY, &[first, 1, N]);
    maker.mention(TYPES, pair);
    maker.mention(EXPRESSIONS, 3);
    maker.flat.fit_rooms();
    maker.flat
}

/// Each sort of fault at each area where it can be. A module that is past a limit has no room in `cases`.
fn refusals(list: &mut Vec<Wanted>, seed: u64) {
    let mut rng = Rng::new(seed);
    for fault in FAULTS.iter().filter(|fault| fault.number != 2) {
        let mut areas: Vec<u32> = Vec::new();
        for _ in 0..200 {
            let Some((flat, refusal)) = damage_with(rich(), &mut rng, fault) else {
                continue;
            };
            if areas.contains(&refusal.area) {
                continue;
            }
            areas.push(refusal.area);
            assert_eq!(expect_check(&flat), Some(refusal), "{}", fault.name);
            list.push(Wanted {
                what: format!("{}: {}", fault.number, fault.name),
                keep: list.len().is_multiple_of(2),
                flat,
                roads: None,
            });
        }
        assert!(!areas.is_empty(), "{} has a place", fault.name);
    }
}
