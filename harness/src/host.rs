//! A module of the crate as document 01's words, and rebuilt by what the library answers: what a host does that
//! compacts naga's modules with the library.

use crate::closure;
use crate::flat::*;
use crate::handles::{ends, handle, span, word, Numbered};
use crate::library::{Lent, Library};
use crate::places::*;
use crate::roads::{argument, bare_entry};
use naga::compact::{compact, KeepUnused};
use naga::{
    Arena, Block, Expression, Function, Handle, Module, Scalar, ShaderStage, Span, Statement,
    TypeInner, UniqueArena,
};
use std::cell::Cell;
use std::collections::HashSet;

/// The module with each element's own number as its span.
pub fn numbered(module: &Module) -> Module {
    let mut module = module.clone();
    let mut types = UniqueArena::new();
    for (handle, ty) in module.types.iter() {
        types.insert(ty.clone(), span_of(handle));
    }
    module.types = types;
    number_arena(&mut module.constants);
    number_arena(&mut module.overrides);
    number_arena(&mut module.global_variables);
    number_arena(&mut module.global_expressions);
    module
}

fn number_arena<T>(arena: &mut Arena<T>) {
    let mut numbered = Arena::new();
    for (handle, item, _) in arena.drain() {
        numbered.append(item, span_of(handle));
    }
    *arena = numbered;
}

fn span_of<T>(handle: Handle<T>) -> Span {
    Span::new(word(handle), N)
}

/// The numbers that the elements of a numbered module carry, for each arena.
pub type Numbers = [Vec<u32>; 5];

pub fn numbers(module: &Module) -> Numbers {
    [
        starts(
            module
                .types
                .iter()
                .map(|pair| module.types.get_span(pair.0)),
        ),
        arena_numbers(&module.constants),
        arena_numbers(&module.overrides),
        arena_numbers(&module.global_variables),
        arena_numbers(&module.global_expressions),
    ]
}

fn arena_numbers<T>(arena: &Arena<T>) -> Vec<u32> {
    starts(arena.iter().map(|pair| arena.get_span(pair.0)))
}

fn starts(spans: impl Iterator<Item = Span>) -> Vec<u32> {
    spans.map(|span| ends(span).0).collect()
}

/// The words of areas 0 to 6 without tags.
pub fn untagged(module: &Module) -> Flat {
    let types = &module.types;
    words(module, |at| types[at].inner.is_abstract(types))
}

/// The words of areas 0 to 6 with these numbers as tags.
pub fn tagged(module: &Module, numbers: &Numbers) -> Flat {
    let mut flat = untagged(module);
    for (area, numbers) in numbers.iter().enumerate() {
        for (record, number) in flat.each_mut(area).zip(numbers) {
            record[BODIES[area] + TAG] = *number;
        }
    }
    flat
}

/// The module with what its functions do not use dropped from their own expressions, by the crate; its areas are as
/// before. In the copy that the crate compacts, more entry points name every element.
pub fn settle(module: &Module) -> Result<Module, String> {
    let mut settled = module.clone();
    let expressions: Vec<_> = module
        .global_expressions
        .iter()
        .map(|pair| pair.0)
        .collect();
    for three in expressions.chunks(3) {
        let sizes = [0, 1, 2].map(|place| three.get(place).copied());
        let mut entry = bare_entry(ShaderStage::Compute);
        entry.workgroup_size_overrides = Some(sizes);
        settled.entry_points.push(entry);
    }
    let mut entry = bare_entry(ShaderStage::Compute);
    entry.function = names_all(module);
    settled.entry_points.push(entry);
    compact(&mut settled, KeepUnused::Yes);
    settled.entry_points.truncate(module.entry_points.len());
    if untagged(&settled) != untagged(module) || settled.functions.len() != module.functions.len() {
        return Err(String::from(
            "an area changed though every element was named",
        ));
    }
    Ok(settled)
}

/// A function that names every type, constant, override and global.
fn names_all(module: &Module) -> Function {
    let mut function = Function::default();
    for (ty, _) in module.types.iter() {
        function.arguments.push(argument(ty));
    }
    let constants = module
        .constants
        .iter()
        .map(|pair| Expression::Constant(pair.0));
    let overrides = module
        .overrides
        .iter()
        .map(|pair| Expression::Override(pair.0));
    let globals = module
        .global_variables
        .iter()
        .map(|pair| Expression::GlobalVariable(pair.0));
    for expression in constants.chain(overrides).chain(globals) {
        let handle = function.expressions.append(expression, Span::UNDEFINED);
        function.named_expressions.insert(handle, String::new());
    }
    function
}

/// The functions called in a block and in those inside it.
fn calls(block: &mut Block, each: &mut impl FnMut(&mut Handle<Function>)) {
    for statement in block.iter_mut() {
        match statement {
            Statement::Call { function, .. } => each(function),
            Statement::Block(inner) => calls(inner, each),
            Statement::If { accept, reject, .. } => {
                calls(accept, each);
                calls(reject, each);
            }
            Statement::Switch { cases, .. } => {
                for case in cases {
                    calls(&mut case.body, each);
                }
            }
            Statement::Loop {
                body, continuing, ..
            } => {
                calls(body, each);
                calls(continuing, each);
            }
            _ => {}
        }
    }
}

/// The functions whose mentions count: with No those that calls reach from the entry points, with Yes all.
pub fn reached(module: &mut Module, keep: bool) -> Vec<bool> {
    let mut reached = vec![keep; module.functions.len()];
    for entry in &mut module.entry_points {
        calls(&mut entry.function.body, &mut |called| {
            reached[called.index()] = true
        });
    }
    // Callers come after those they call.
    for (handle, function) in module.functions.iter_mut().rev() {
        if reached[handle.index()] {
            calls(&mut function.body, &mut |called| {
                reached[called.index()] = true
            });
        }
    }
    reached
}

/// Each place outside the areas that names an element of them: entry points, reached functions, special types.
fn mentioned(module: &mut Module, reached: &[bool], each: &mut impl FnMut(Place<'_>)) {
    for entry in &mut module.entry_points {
        for size in entry.workgroup_size_overrides.iter_mut().flatten() {
            each(Place::Maybe(size));
        }
        let payloads = [&mut entry.task_payload, &mut entry.incoming_ray_payload];
        payloads
            .into_iter()
            .flatten()
            .for_each(|global| each(Place::Global(global)));
        if let Some(mesh) = &mut entry.mesh_info {
            each(Place::Global(&mut mesh.output_variable));
            each(Place::Type(&mut mesh.vertex_output_type));
            each(Place::Type(&mut mesh.primitive_output_type));
            each(Place::Maybe(&mut mesh.max_vertices_override));
            each(Place::Maybe(&mut mesh.max_primitives_override));
        }
        if let ShaderStage::Task | ShaderStage::Mesh = entry.stage {
            let mut all = module.types.iter();
            let u32s = all.find(|(_, ty)| ty.inner == TypeInner::Scalar(Scalar::U32));
            u32s.into_iter()
                .for_each(|(mut ty, _)| each(Place::Type(&mut ty)));
        }
        mentioned_by(&mut entry.function, each);
    }
    for (handle, function) in module.functions.iter_mut() {
        if reached[handle.index()] {
            mentioned_by(function, each);
        }
    }
    let special = &mut module.special_types;
    let single = [
        &mut special.ray_desc,
        &mut special.ray_intersection,
        &mut special.ray_vertex_return,
        &mut special.external_texture_params,
        &mut special.external_texture_transfer_function,
    ];
    let predeclared = special.predeclared_types.values_mut();
    let all = single.into_iter().flatten().chain(predeclared);
    all.for_each(|ty| each(Place::Type(ty)));
}

/// What a settled function names outside itself: all its expressions are used.
fn mentioned_by(function: &mut Function, each: &mut impl FnMut(Place<'_>)) {
    for argument in &mut function.arguments {
        each(Place::Type(&mut argument.ty));
    }
    if let Some(result) = &mut function.result {
        each(Place::Type(&mut result.ty));
    }
    for (_, local) in function.local_variables.iter_mut() {
        each(Place::Type(&mut local.ty));
    }
    for (_, expression) in function.expressions.iter_mut() {
        for place in expression_places(expression).1 {
            match place {
                // The function's own.
                Place::Expression(_) | Place::Maybe(_) | Place::Components(_) => {}
                outside => each(outside),
            }
        }
    }
}

/// Area and handle of each element that is mentioned, once each, in the order of the first mentions.
pub fn mentions(module: &mut Module, reached: &[bool]) -> Vec<u32> {
    let mut seen = HashSet::new();
    let mut list = Vec::new();
    mentioned(module, reached, &mut |place| {
        let element = match place {
            Place::Type(handle) => (TYPES, word(*handle)),
            Place::Constant(handle) => (CONSTANTS, word(*handle)),
            Place::Override(handle) => (OVERRIDES, word(*handle)),
            Place::Global(handle) => (GLOBALS, word(*handle)),
            Place::Maybe(Some(handle)) => (EXPRESSIONS, word(*handle)),
            _ => return,
        };
        if seen.insert(element) {
            list.extend([element.0 as u32, element.1]);
        }
    });
    list
}

/// Writes new handles by the maps of a pass, each as the library's `adjust` tells it.
struct Mover<'a> {
    library: &'a dyn Library,
    maps: &'a [Vec<u32>; 5],
    /// What the pass left, for the spans.
    areas: &'a [Vec<u32>; 8],
    functions: Vec<u32>,
    /// How many handles have no new one.
    lost: Cell<usize>,
}

impl Mover<'_> {
    fn place(&self, place: Place<'_>) {
        match place {
            Place::Unused | Place::Form(_) | Place::Maybe(None) => {}
            Place::Type(to) => self.set(&self.maps[TYPES], to),
            Place::Constant(to) => self.set(&self.maps[CONSTANTS], to),
            Place::Override(to) => self.set(&self.maps[OVERRIDES], to),
            Place::Global(to) => self.set(&self.maps[GLOBALS], to),
            Place::Function(to) => self.set(&self.functions, to),
            Place::Expression(to) | Place::Maybe(Some(to)) => self.set(&self.maps[EXPRESSIONS], to),
            Place::Components(run) => {
                for item in run {
                    self.place(Place::Expression(item));
                }
            }
            Place::Members(run) => {
                for member in run {
                    self.place(Place::Type(&mut member.ty));
                }
            }
        }
    }

    fn set<T: Numbered>(&self, map: &[u32], to: &mut Handle<T>) {
        match self.library.adjust(map, word(*to)) {
            [0, new] => *to = handle(new),
            _ => self.lost.set(self.lost.get() + 1),
        }
    }

    /// The span that the pass left in the new record of an element, if there is such a record.
    fn span(&self, area: usize, old: usize) -> Span {
        let new = self.maps[area][old] as usize;
        let record = self.areas[area].chunks_exact(WIDTHS[area]).nth(new);
        record.map_or(Span::UNDEFINED, |record| span(tail(area, record)))
    }

    /// Keeps what the map keeps, changed.
    fn retain<T>(&self, area: usize, arena: &mut Arena<T>, mut change: impl FnMut(&mut T)) {
        let mut kept = Arena::new();
        for (handle, mut item, _) in arena.drain() {
            if self.maps[area][handle.index()] != N {
                change(&mut item);
                kept.append(item, self.span(area, handle.index()));
            }
        }
        *arena = kept;
    }

    fn types(&self, module: &mut Module) {
        let mut kept = UniqueArena::new();
        for (handle, ty) in module.types.iter() {
            if self.maps[TYPES][handle.index()] != N {
                let mut ty = ty.clone();
                for place in type_places(&mut ty.inner).1 {
                    self.place(place);
                }
                kept.insert(ty, self.span(TYPES, handle.index()));
            }
        }
        module.types = kept;
    }

    fn areas(&self, module: &mut Module) {
        self.types(module);
        self.retain(CONSTANTS, &mut module.constants, |item| {
            self.place(Place::Type(&mut item.ty));
            self.place(Place::Expression(&mut item.init));
        });
        self.retain(OVERRIDES, &mut module.overrides, |item| {
            self.place(Place::Type(&mut item.ty));
            self.place(Place::Maybe(&mut item.init));
        });
        self.retain(GLOBALS, &mut module.global_variables, |item| {
            self.place(Place::Type(&mut item.ty));
            self.place(Place::Maybe(&mut item.init));
        });
        self.retain(EXPRESSIONS, &mut module.global_expressions, |item| {
            for place in expression_places(item).1 {
                self.place(place);
            }
        });
    }

    /// Drops the functions that were not reached and moves the calls of the others.
    fn calls(&self, module: &mut Module) {
        let mut call = |called: &mut Handle<Function>| self.set(&self.functions, called);
        for entry in &mut module.entry_points {
            calls(&mut entry.function.body, &mut call);
        }
        let mut kept = Arena::new();
        for (handle, mut function, span) in module.functions.drain() {
            if self.functions[handle.index()] != N {
                calls(&mut function.body, &mut call);
                kept.append(function, span);
            }
        }
        module.functions = kept;
    }
}

/// A settled module after a pass: its arenas by the maps and with the spans that were left, its mentions adjusted,
/// unreached functions gone.
pub fn rebuild(
    library: &dyn Library,
    settled: &Module,
    reached: &[bool],
    lent: &Lent,
) -> Result<Module, String> {
    let mut module = settled.clone();
    let mover = Mover {
        library,
        maps: &lent.maps.each_ref().map(|map| map.get().to_vec()),
        areas: &lent.areas.each_ref().map(|area| area.get().to_vec()),
        functions: closure::number(reached),
        lost: Cell::new(0),
    };
    mentioned(&mut module, reached, &mut |place| mover.place(place));
    mover.areas(&mut module);
    mover.calls(&mut module);
    match mover.lost.get() {
        0 => Ok(module),
        lost => Err(format!("{lost} handles of kept elements have no new one")),
    }
}
