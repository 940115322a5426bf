//! The same pass in plain Rust: check, sweep, maps, and the areas rewritten in place.

use crate::flat::*;

type Type = [u32; WIDTHS[TYPES]];
type Constant = [u32; WIDTHS[CONSTANTS]];
type Override = [u32; WIDTHS[OVERRIDES]];
type Global = [u32; WIDTHS[GLOBALS]];
type Expression = [u32; WIDTHS[EXPRESSIONS]];
type Mention = [u32; WIDTHS[MENTIONS]];

/// Type kinds.
const BASED: u32 = 1;
const SIZED: u32 = 2;
const STRUCT: u32 = 3;

/// Expression kinds that have a run or a form, or can't stand at module scope.
const COMPOSE: u32 = 8;
const GLOBAL_VARIABLE: u32 = 13;
const SAMPLE: u32 = 15;
const QUERY: u32 = 17;
const CALL_RESULT: u32 = 27;

/// Type flags.
const NAMED: u32 = 1;
const ABSTRACT: u32 = 2;

/// What an expression's slot names.
#[derive(Clone, Copy)]
enum Slot {
    Type,
    Constant,
    Override,
    Expression,
    /// An expression or N.
    Maybe,
}

/// The areas as records.
struct Module<'a> {
    types: &'a [Type],
    constants: &'a [Constant],
    overrides: &'a [Override],
    globals: &'a [Global],
    expressions: &'a [Expression],
    members: &'a [u32],
    components: &'a [u32],
    mentions: &'a [Mention],
}

struct Fault {
    number: u32,
    area: usize,
    record: usize,
}

impl From<Fault> for Answer {
    fn from(fault: Fault) -> Answer {
        Answer {
            number: fault.number,
            area: fault.area as u32,
            record: fault.record as u32,
            kept: [0; 7],
        }
    }
}

/// Compacts the module, or refuses it and changes nothing.
pub fn compact(mut areas: Areas<'_>, mut maps: Maps<'_>, keep_unused: bool) -> Answer {
    let marks = match validate(&areas, &maps) {
        Ok(deps) => sweep(&Module::new(&areas), &deps, keep_unused),
        Err(fault) => return fault.into(),
    };
    let [types, constants, overrides, globals, expressions] = number(&marks, &mut maps);
    let members = rewrite_types(areas.types, areas.members, &maps);
    rewrite_constants(areas.constants, maps.constants, &maps);
    rewrite_constants(areas.overrides, maps.overrides, &maps);
    rewrite_globals(areas.globals, &maps);
    let components = rewrite_expressions(areas.expressions, areas.components, &maps);
    rewrite_mentions(&mut areas, &maps);
    let kept = [
        types,
        constants,
        overrides,
        globals,
        expressions,
        members,
        components,
    ];
    Answer {
        kept,
        ..Answer::default()
    }
}

/// What `compact` would refuse.
pub fn check(areas: &Areas<'_>, maps: &Maps<'_>) -> Answer {
    match validate(areas, maps) {
        Ok(_) => Answer::default(),
        Err(fault) => fault.into(),
    }
}

/// Numbers 1 to 7 in turn. A good module's deps are the answer, for the sweep to use.
fn validate(areas: &Areas<'_>, maps: &Maps<'_>) -> Result<Vec<u32>, Fault> {
    check_lengths(areas, maps)?;
    let module = Module::new(areas);
    check_shapes(&module)?;
    check_kinds(&module)?;
    check_handles(&module)?;
    let deps = module.deps();
    check_order(&module, &deps)?;
    Ok(deps)
}

impl<'a> Module<'a> {
    fn new(areas: &'a Areas<'_>) -> Module<'a> {
        Module {
            types: areas.types.as_chunks().0,
            constants: areas.constants.as_chunks().0,
            overrides: areas.overrides.as_chunks().0,
            globals: areas.globals.as_chunks().0,
            expressions: areas.expressions.as_chunks().0,
            members: areas.members,
            components: areas.components,
            mentions: areas.mentions.as_chunks().0,
        }
    }

    /// One more than dep of each type, 0 for none.
    fn deps(&self) -> Vec<u32> {
        let mut deepest = 0;
        let deps = self.types.iter().map(|ty| {
            if ty[0] == SIZED {
                let init = self.overrides[ty[3] as usize][2];
                // N plus 1 is 0: none.
                deepest = deepest.max(init.wrapping_add(1));
            }
            deepest
        });
        deps.collect()
    }

    fn members_of(&self, ty: &Type) -> &'a [u32] {
        match ty[0] {
            STRUCT => &self.members[ty[2] as usize..][..ty[3] as usize],
            _ => &[],
        }
    }

    fn components_of(&self, expression: &Expression) -> &'a [u32] {
        match expression[0] {
            COMPOSE => &self.components[expression[2] as usize..][..expression[3] as usize],
            _ => &[],
        }
    }

    fn sizes(&self) -> [usize; 5] {
        [
            self.types.len(),
            self.constants.len(),
            self.overrides.len(),
            self.globals.len(),
            self.expressions.len(),
        ]
    }
}

/// Visits each word of an expression that holds a handle or may hold one.
fn each_slot(expression: &Expression, mut visit: impl FnMut(Slot, usize)) {
    match expression[0] {
        5 => visit(Slot::Constant, 1),
        6 => visit(Slot::Override, 1),
        7 | 28..=30 | COMPOSE => visit(Slot::Type, 1),
        10..=12 | 14 | 18 | 19 | 22 | 23 | 25 | 26 | 31 => visit(Slot::Expression, 1),
        9 | 20 | 32 => {
            visit(Slot::Expression, 1);
            visit(Slot::Expression, 2);
        }
        21 | 33 => {
            visit(Slot::Expression, 1);
            visit(Slot::Expression, 2);
            visit(Slot::Expression, 3);
        }
        SAMPLE => {
            visit(Slot::Expression, 1);
            visit(Slot::Expression, 2);
            visit(Slot::Expression, 3);
            visit(Slot::Maybe, 4);
            visit(Slot::Maybe, 5);
            if expression[6] >= 2 {
                visit(Slot::Expression, 7);
            }
            if expression[6] == 4 {
                visit(Slot::Expression, 8);
            }
            visit(Slot::Maybe, 9);
        }
        16 => {
            visit(Slot::Expression, 1);
            visit(Slot::Expression, 2);
            visit(Slot::Maybe, 3);
            visit(Slot::Maybe, 4);
            visit(Slot::Maybe, 5);
        }
        QUERY => {
            visit(Slot::Expression, 1);
            visit(Slot::Maybe, 3);
        }
        24 => {
            visit(Slot::Expression, 1);
            visit(Slot::Maybe, 2);
            visit(Slot::Maybe, 3);
            visit(Slot::Maybe, 4);
        }
        _ => {}
    }
}

/// Numbers 1 to 3.
fn check_lengths(areas: &Areas<'_>, maps: &Maps<'_>) -> Result<(), Fault> {
    let lengths = [
        areas.types.len(),
        areas.constants.len(),
        areas.overrides.len(),
        areas.globals.len(),
        areas.expressions.len(),
        areas.members.len(),
        areas.components.len(),
        areas.mentions.len(),
    ];
    let rooms = [
        maps.types.len(),
        maps.constants.len(),
        maps.overrides.len(),
        maps.globals.len(),
        maps.expressions.len(),
    ];
    let records = |area: usize| lengths[area] / WIDTHS[area];
    each(1, 0..8, |area| lengths[area].is_multiple_of(WIDTHS[area]))?;
    each(2, 0..8, |area| records(area) <= LIMITS[area])?;
    each(3, 0..5, |area| records(area) <= rooms[area])
}

/// The first area that isn't good.
fn each(
    number: u32,
    mut areas: std::ops::Range<usize>,
    good: impl Fn(usize) -> bool,
) -> Result<(), Fault> {
    match areas.find(|&area| !good(area)) {
        Some(area) => Err(Fault {
            number,
            area,
            record: 0,
        }),
        None => Ok(()),
    }
}

/// The first record of an area that isn't good.
fn every<T>(
    number: u32,
    area: usize,
    records: &[T],
    mut good: impl FnMut(usize, &T) -> bool,
) -> Result<(), Fault> {
    for (record, item) in records.iter().enumerate() {
        if !good(record, item) {
            return Err(Fault {
                number,
                area,
                record,
            });
        }
    }
    Ok(())
}

/// The runs of one pool so far.
struct Runs {
    end: usize,
    room: usize,
}

impl Runs {
    fn new(pool: &[u32]) -> Runs {
        Runs {
            end: 0,
            room: pool.len(),
        }
    }

    /// Takes the next run, if it begins where the last one ended and stays within the pool.
    fn take(&mut self, start: u32, count: u32) -> bool {
        if start as usize != self.end || count as usize > self.room - self.end {
            return false;
        }
        self.end += count as usize;
        true
    }

    fn fill_pool(&self) -> bool {
        self.end == self.room
    }
}

/// Number 4.
fn check_shapes(module: &Module<'_>) -> Result<(), Fault> {
    let mut members = Runs::new(module.members);
    let mut components = Runs::new(module.components);
    every(4, TYPES, module.types, |_, ty| {
        type_shaped(ty, &mut members)
    })?;
    every(4, CONSTANTS, module.constants, |_, item| item[0] <= 1)?;
    every(4, OVERRIDES, module.overrides, |_, item| item[0] <= 1)?;
    every(4, EXPRESSIONS, module.expressions, |_, expression| {
        expression_shaped(expression, &mut components)
    })?;
    every(4, MEMBERS, &[members], |_, runs| runs.fill_pool())?;
    every(4, COMPONENTS, &[components], |_, runs| runs.fill_pool())?;
    every(4, MENTIONS, module.mentions, |_, mention| mention[0] < 5)
}

fn type_shaped(ty: &Type, members: &mut Runs) -> bool {
    let [kind, flags, a, b, ..] = *ty;
    let shaped = match kind {
        0 => a == N && b == N,
        BASED => b == N,
        SIZED => true,
        STRUCT => members.take(a, b),
        _ => false,
    };
    shaped && flags <= NAMED + ABSTRACT
}

fn expression_shaped(expression: &Expression, components: &mut Runs) -> bool {
    let used = match expression[0] {
        0..=4 => 0,
        5..=7 | 10..=12 | 14 | 18 | 19 | 22 | 23 | 25 | 26 | 28..=31 => 1,
        9 | 20 | 32 => 2,
        21 | 33 => 3,
        24 => 4,
        16 => 5,
        COMPOSE if components.take(expression[2], expression[3]) => 3,
        GLOBAL_VARIABLE | CALL_RESULT => return true,
        SAMPLE => return sample_shaped(expression),
        QUERY => match expression[2] {
            0 => 3,
            1..=3 => 2,
            _ => return false,
        },
        _ => return false,
    };
    expression[1 + used..BODIES[EXPRESSIONS]]
        .iter()
        .all(|&word| word == N)
}

/// An `ImageSample` uses all slots but x and y where its form doesn't name them.
fn sample_shaped(expression: &Expression) -> bool {
    let [x, y] = [expression[7], expression[8]];
    match expression[6] {
        0 | 1 => x == N && y == N,
        2 | 3 => y == N,
        form => form == 4,
    }
}

/// Number 5.
fn check_kinds(module: &Module<'_>) -> Result<(), Fault> {
    every(5, EXPRESSIONS, module.expressions, |_, expression| {
        !matches!(expression[0], GLOBAL_VARIABLE | CALL_RESULT)
    })
}

/// Number 6.
fn check_handles(module: &Module<'_>) -> Result<(), Fault> {
    let sizes = module.sizes();
    let below = |area: usize, handle: u32| (handle as usize) < sizes[area];
    let maybe = |handle: u32| handle == N || below(EXPRESSIONS, handle);
    every(6, TYPES, module.types, |_, ty| match ty[0] {
        BASED => below(TYPES, ty[2]),
        SIZED => below(TYPES, ty[2]) && below(OVERRIDES, ty[3]),
        _ => module.members_of(ty).iter().all(|&ty| below(TYPES, ty)),
    })?;
    every(6, CONSTANTS, module.constants, |_, item| {
        below(TYPES, item[1]) && below(EXPRESSIONS, item[2])
    })?;
    every(6, OVERRIDES, module.overrides, |_, item| {
        below(TYPES, item[1]) && maybe(item[2])
    })?;
    every(6, GLOBALS, module.globals, |_, item| {
        below(TYPES, item[0]) && maybe(item[1])
    })?;
    every(6, EXPRESSIONS, module.expressions, |_, expression| {
        let mut good = true;
        each_slot(expression, |slot, k| {
            good &= match slot {
                Slot::Type => below(TYPES, expression[k]),
                Slot::Constant => below(CONSTANTS, expression[k]),
                Slot::Override => below(OVERRIDES, expression[k]),
                Slot::Expression => below(EXPRESSIONS, expression[k]),
                Slot::Maybe => maybe(expression[k]),
            }
        });
        let mut run = module.components_of(expression).iter();
        good && run.all(|&component| below(EXPRESSIONS, component))
    })?;
    every(6, MENTIONS, module.mentions, |_, mention| {
        below(mention[0] as usize, mention[1])
    })
}

/// Number 7.
fn check_order(module: &Module<'_>, deps: &[u32]) -> Result<(), Fault> {
    every(7, TYPES, module.types, |place, ty| {
        let older = |ty: u32| (ty as usize) < place;
        match ty[0] {
            BASED => older(ty[2]),
            SIZED => older(ty[2]) && older(module.overrides[ty[3] as usize][1]),
            _ => module.members_of(ty).iter().all(|&ty| older(ty)),
        }
    })?;
    every(7, EXPRESSIONS, module.expressions, |place, expression| {
        expression_ordered(module, deps, place, expression)
    })
}

fn expression_ordered(
    module: &Module<'_>,
    deps: &[u32],
    place: usize,
    expression: &Expression,
) -> bool {
    let known = |ty: u32| deps[ty as usize] as usize <= place;
    let older = |handle: u32| (handle as usize) < place;
    let maybe = |handle: u32| handle == N || older(handle);
    let mut good = true;
    each_slot(expression, |slot, k| {
        let handle = expression[k];
        good &= match slot {
            Slot::Type => known(handle),
            Slot::Constant => {
                let [_, ty, init, ..] = module.constants[handle as usize];
                known(ty) && older(init)
            }
            Slot::Override => {
                let [_, ty, init, ..] = module.overrides[handle as usize];
                known(ty) && maybe(init)
            }
            Slot::Expression => older(handle),
            Slot::Maybe => maybe(handle),
        }
    });
    let mut run = module.components_of(expression).iter();
    good && run.all(|&component| older(component))
}

/// What is kept, one mark for each record.
struct Marks {
    types: Vec<bool>,
    constants: Vec<bool>,
    overrides: Vec<bool>,
    globals: Vec<bool>,
    expressions: Vec<bool>,
}

impl Marks {
    fn new(module: &Module<'_>) -> Marks {
        let [types, constants, overrides, globals, expressions] =
            module.sizes().map(|count| vec![false; count]);
        Marks {
            types,
            constants,
            overrides,
            globals,
            expressions,
        }
    }

    fn ty(&mut self, handle: u32) {
        self.types[handle as usize] = true;
    }

    fn expression(&mut self, handle: u32) {
        if handle != N {
            self.expressions[handle as usize] = true;
        }
    }

    fn constant(&mut self, module: &Module<'_>, handle: u32) {
        self.constants[handle as usize] = true;
        let [_, ty, init, ..] = module.constants[handle as usize];
        self.ty(ty);
        self.expression(init);
    }

    fn pipeline_override(&mut self, module: &Module<'_>, handle: u32) {
        self.overrides[handle as usize] = true;
        let [_, ty, init, ..] = module.overrides[handle as usize];
        self.ty(ty);
        self.expression(init);
    }

    fn global(&mut self, module: &Module<'_>, handle: u32) {
        self.globals[handle as usize] = true;
        let [ty, init, ..] = module.globals[handle as usize];
        self.ty(ty);
        self.expression(init);
    }
}

/// Marks the roots and all that they need, youngest first.
fn sweep(module: &Module<'_>, deps: &[u32], keep_unused: bool) -> Marks {
    let mut marks = Marks::new(module);
    mark_roots(module, &mut marks);
    if keep_unused {
        mark_unused(module, &mut marks);
    }
    let mut expressions = module.expressions.len();
    for ty in (0..module.types.len()).rev() {
        while expressions > deps[ty] as usize {
            expressions -= 1;
            visit_expression(module, &mut marks, expressions);
        }
        visit_type(module, &mut marks, ty);
    }
    for expression in (0..expressions).rev() {
        visit_expression(module, &mut marks, expression);
    }
    marks
}

/// The mentions, and the named constants that aren't abstract.
fn mark_roots(module: &Module<'_>, marks: &mut Marks) {
    for &[area, handle] in module.mentions {
        match area {
            0 => marks.ty(handle),
            1 => marks.constant(module, handle),
            2 => marks.pipeline_override(module, handle),
            3 => marks.global(module, handle),
            _ => marks.expression(handle),
        }
    }
    for (handle, item) in (0..).zip(module.constants) {
        if item[0] == 1 && module.types[item[1] as usize][1] & ABSTRACT == 0 {
            marks.constant(module, handle);
        }
    }
}

/// What `KeepUnused::Yes` keeps besides.
fn mark_unused(module: &Module<'_>, marks: &mut Marks) {
    for handle in 0..module.globals.len() {
        marks.global(module, handle as u32);
    }
    for (handle, item) in (0..).zip(module.overrides) {
        if item[0] == 1 {
            marks.pipeline_override(module, handle);
        }
    }
    for (handle, ty) in (0..).zip(module.types) {
        if ty[1] & NAMED != 0 {
            marks.ty(handle);
        }
    }
}

fn visit_type(module: &Module<'_>, marks: &mut Marks, place: usize) {
    if !marks.types[place] {
        return;
    }
    let ty = &module.types[place];
    match ty[0] {
        BASED => marks.ty(ty[2]),
        SIZED => {
            marks.ty(ty[2]);
            marks.pipeline_override(module, ty[3]);
        }
        _ => {
            for &member in module.members_of(ty) {
                marks.ty(member);
            }
        }
    }
}

fn visit_expression(module: &Module<'_>, marks: &mut Marks, place: usize) {
    if !marks.expressions[place] {
        return;
    }
    let expression = &module.expressions[place];
    each_slot(expression, |slot, k| match slot {
        Slot::Type => marks.ty(expression[k]),
        Slot::Constant => marks.constant(module, expression[k]),
        Slot::Override => marks.pipeline_override(module, expression[k]),
        Slot::Expression | Slot::Maybe => marks.expression(expression[k]),
    });
    for &component in module.components_of(expression) {
        marks.expression(component);
    }
}

/// Fills the maps and counts what is kept.
fn number(marks: &Marks, maps: &mut Maps<'_>) -> [u32; 5] {
    [
        number_arena(&marks.types, maps.types),
        number_arena(&marks.constants, maps.constants),
        number_arena(&marks.overrides, maps.overrides),
        number_arena(&marks.globals, maps.globals),
        number_arena(&marks.expressions, maps.expressions),
    ]
}

fn number_arena(marks: &[bool], map: &mut [u32]) -> u32 {
    let mut next = 0;
    for (&kept, word) in marks.iter().zip(map) {
        *word = if kept { next } else { N };
        next += u32::from(kept);
    }
    next
}

/// The new handle, N for N.
fn adjusted(map: &[u32], handle: u32) -> u32 {
    match handle {
        N => N,
        _ => map[handle as usize],
    }
}

/// Keeps the records that the map keeps, each adjusted, and fills the rest with N.
fn retain<const WIDTH: usize>(
    area: &mut [u32],
    map: &[u32],
    mut adjust: impl FnMut([u32; WIDTH]) -> [u32; WIDTH],
) {
    let (records, _) = area.as_chunks_mut::<WIDTH>();
    let mut kept = 0;
    for place in 0..records.len() {
        if map[place] != N {
            records[kept] = adjust(records[place]);
            kept += 1;
        }
    }
    records[kept..].as_flattened_mut().fill(N);
}

/// Moves a run, adjusted, to the pool's new end; answers its new start.
fn move_run(pool: &mut [u32], end: &mut usize, start: u32, count: u32, map: &[u32]) -> u32 {
    let new_start = *end;
    for from in start as usize..start as usize + count as usize {
        pool[*end] = map[pool[from] as usize];
        *end += 1;
    }
    new_start as u32
}

/// Answers how many words of the pool are kept.
fn rewrite_types(types: &mut [u32], members: &mut [u32], maps: &Maps<'_>) -> u32 {
    let mut end = 0;
    retain(types, maps.types, |mut ty: Type| {
        match ty[0] {
            BASED => ty[2] = maps.types[ty[2] as usize],
            SIZED => {
                ty[2] = maps.types[ty[2] as usize];
                ty[3] = maps.overrides[ty[3] as usize];
            }
            STRUCT => ty[2] = move_run(members, &mut end, ty[2], ty[3], maps.types),
            _ => {}
        }
        ty
    });
    members[end..].fill(N);
    end as u32
}

/// Constants or overrides.
fn rewrite_constants(area: &mut [u32], own: &[u32], maps: &Maps<'_>) {
    retain(area, own, |[named, ty, init, start, length, tag]| {
        let init = adjusted(maps.expressions, init);
        [named, maps.types[ty as usize], init, start, length, tag]
    });
}

fn rewrite_globals(globals: &mut [u32], maps: &Maps<'_>) {
    retain(globals, maps.globals, |[ty, init, start, length, tag]| {
        let init = adjusted(maps.expressions, init);
        [maps.types[ty as usize], init, start, length, tag]
    });
}

/// Answers how many words of the pool are kept.
fn rewrite_expressions(expressions: &mut [u32], components: &mut [u32], maps: &Maps<'_>) -> u32 {
    let mut end = 0;
    retain(expressions, maps.expressions, |old: Expression| {
        let mut new = old;
        each_slot(&old, |slot, k| {
            new[k] = match slot {
                Slot::Type => maps.types[old[k] as usize],
                Slot::Constant => maps.constants[old[k] as usize],
                Slot::Override => maps.overrides[old[k] as usize],
                Slot::Expression | Slot::Maybe => adjusted(maps.expressions, old[k]),
            }
        });
        if old[0] == COMPOSE {
            new[2] = move_run(components, &mut end, old[2], old[3], maps.expressions);
        }
        new
    });
    components[end..].fill(N);
    end as u32
}

fn rewrite_mentions(areas: &mut Areas<'_>, maps: &Maps<'_>) {
    let (mentions, _) = areas.mentions.as_chunks_mut();
    for [area, handle] in mentions {
        let map = match area {
            0 => &maps.types,
            1 => &maps.constants,
            2 => &maps.overrides,
            3 => &maps.globals,
            _ => &maps.expressions,
        };
        *handle = map[*handle as usize];
    }
}
