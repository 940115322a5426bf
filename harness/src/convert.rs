//! A flat module as a module of the published compactor, and back.
//!
//! Each element has the span of its record, and carries its old number in its name, its mark, its id, its binding or
//! its literal where it can. From those and from what names what, the maps are read off the module after the pass.

use crate::flat::*;
use crate::handles::{global, handle, option, span, word, HIGHEST};
use crate::places::words;
use crate::rng::Rng;
use crate::roads::{self, Laid, Road};
use crate::survivors::Survivors;
use crate::types;
use naga::{
    BinaryOperator, Constant, CooperativeData, CooperativeRole, CooperativeSize, DerivativeAxis,
    DerivativeControl, DocComments, Expression, FastIndexMap, GlobalVariable, Handle, ImageQuery,
    Literal, MathFunction, Module, Override, RelationalFunction, ResourceBinding, SampleLevel,
    ScalarKind, SwizzleComponent, Type, UnaryOperator, VectorSize,
};

/// A module for the published compactor and where its mentions went.
pub struct Built {
    pub module: Module,
    pub laid: Laid,
    /// The type that is the scalar u32, if any.
    stage_type: Option<usize>,
    leaves: types::Leaves,
}

fn name_of(named: bool, old: usize) -> Option<String> {
    named.then(|| old.to_string())
}

/// An override. One without a name has an id, which carries its number.
fn override_from(record: &[u32], old: usize, id: bool) -> Override {
    let named = record[0] == 1;
    Override {
        name: name_of(named, old),
        id: (id || !named).then_some(old as u16),
        ty: handle(record[1]),
        init: option(record[2]),
    }
}

/// A global with a name or with a binding, which carries its number.
fn global_from(record: &[u32], old: usize, named: bool) -> GlobalVariable {
    let binding = ResourceBinding {
        group: old as u32,
        binding: 0,
    };
    GlobalVariable {
        binding: (!named).then_some(binding),
        ..global(name_of(named, old), record[0], option(record[1]))
    }
}

/// Whether the published types can hold the words: every handle that must be there is there. The areas
/// must pass numbers 1 to 4.
pub fn holdable(flat: &Flat) -> bool {
    let mut good = true;
    for area in 0..5 {
        for place in 0..flat.records(area) {
            handles(flat, area, place, |_, handle| good &= handle < HIGHEST);
        }
    }
    for expression in flat.each(EXPRESSIONS) {
        if let GLOBAL_VARIABLE | CALL_RESULT = expression[0] {
            good &= expression[1] < HIGHEST;
        }
    }
    good && flat.each(MENTIONS).all(|mention| mention[1] < HIGHEST)
}

/// The module with its mentions laid on these roads.
pub fn build(flat: &Flat, keep: bool, chosen: &[Road], rng: &mut Rng) -> Built {
    let stage_type = (chosen.iter().position(|road| *road == Road::Stage))
        .map(|mention| flat.record(MENTIONS, mention)[1] as usize);
    let mut module = Module {
        types: types::arena(flat, stage_type, rng),
        ..Module::default()
    };
    let span = |area: usize, place: usize| span(flat.tail(area, place));
    for (old, record) in flat.each(CONSTANTS).enumerate() {
        let constant = Constant {
            name: name_of(record[0] == 1, old),
            ty: handle(record[1]),
            init: handle(record[2]),
        };
        module.constants.append(constant, span(CONSTANTS, old));
    }
    for (old, record) in flat.each(OVERRIDES).enumerate() {
        let item = override_from(record, old, rng.one_in(2));
        module.overrides.append(item, span(OVERRIDES, old));
    }
    for (old, record) in flat.each(GLOBALS).enumerate() {
        let item = global_from(record, old, rng.one_in(2));
        module.global_variables.append(item, span(GLOBALS, old));
    }
    for place in 0..flat.records(EXPRESSIONS) {
        let expression = expression_from(flat, place);
        let span = span(EXPRESSIONS, place);
        module.global_expressions.append(expression, span);
    }
    if rng.one_in(4) {
        module.doc_comments = Some(Box::new(comments(flat)));
    }
    let laid = roads::lay(&mut module, flat, keep, chosen, rng);
    Built {
        leaves: types::leaves(&module.types),
        module,
        laid,
        stage_type,
    }
}

/// A comment with its old number on each type, constant and global: a second way to read their maps.
fn comments(flat: &Flat) -> DocComments {
    let mut comments = DocComments::default();
    let text = |old: u32| vec![old.to_string()];
    for old in 0..flat.records(TYPES) as u32 {
        comments.types.insert(handle(old), text(old));
    }
    for old in 0..flat.records(CONSTANTS) as u32 {
        comments.constants.insert(handle(old), text(old));
    }
    for old in 0..flat.records(GLOBALS) as u32 {
        comments.global_variables.insert(handle(old), text(old));
    }
    comments
}

/// The map that the comments of an area give.
fn commented<T>(comments: &FastIndexMap<Handle<T>, Vec<String>>, records: usize) -> Vec<u32> {
    let mut map = vec![N; records];
    for (handle, text) in comments {
        let old: usize = text[0].parse().expect("a comment is a number");
        map[old] = word(*handle);
    }
    map
}

/// Holds the maps that the comments give against those that were read.
fn read_comments(module: &Module, after: &After) -> Result<(), String> {
    let Some(comments) = &module.doc_comments else {
        return Ok(());
    };
    let maps = &after.maps;
    let same = maps[TYPES] == commented(&comments.types, maps[TYPES].len())
        && maps[CONSTANTS] == commented(&comments.constants, maps[CONSTANTS].len())
        && maps[GLOBALS] == commented(&comments.global_variables, maps[GLOBALS].len());
    if same {
        return Ok(());
    }
    Err(String::from(
        "the comments moved otherwise than their elements",
    ))
}

fn expression_from(flat: &Flat, place: usize) -> Expression {
    use Expression as Ex;
    let record = flat.record(EXPRESSIONS, place);
    let slot = |number: usize| record[1 + number];
    let needed = |number: usize| handle::<Expression>(slot(number));
    let maybe = |number: usize| option::<Expression>(slot(number));
    let old = place as u32;
    match record[0] {
        0 => Ex::Literal(Literal::U32(old)),
        1 => Ex::FunctionArgument(old),
        2 => Ex::LocalVariable(handle(old)),
        3 => Ex::SubgroupBallotResult,
        4 => Ex::RayQueryProceedResult,
        5 => Ex::Constant(handle(slot(0))),
        6 => Ex::Override(handle(slot(0))),
        7 => Ex::ZeroValue(handle(slot(0))),
        8 => {
            let (start, count) = (slot(1) as usize, slot(2) as usize);
            let run = flat.areas[COMPONENTS][start..start + count].iter();
            Ex::Compose {
                ty: handle(slot(0)),
                components: run.map(|item| handle(*item)).collect(),
            }
        }
        9 => Ex::Access {
            base: needed(0),
            index: needed(1),
        },
        10 => Ex::AccessIndex {
            base: needed(0),
            index: old,
        },
        11 => Ex::Splat {
            size: VectorSize::Bi,
            value: needed(0),
        },
        12 => Ex::Swizzle {
            size: VectorSize::Bi,
            vector: needed(0),
            pattern: [SwizzleComponent::X; 4],
        },
        13 => Ex::GlobalVariable(handle(slot(0))),
        14 => Ex::Load { pointer: needed(0) },
        15 => Ex::ImageSample {
            image: needed(0),
            sampler: needed(1),
            gather: None,
            coordinate: needed(2),
            array_index: maybe(3),
            offset: maybe(4),
            level: match slot(LEVEL_FORM) {
                0 => SampleLevel::Auto,
                1 => SampleLevel::Zero,
                2 => SampleLevel::Exact(needed(6)),
                3 => SampleLevel::Bias(needed(6)),
                _ => SampleLevel::Gradient {
                    x: needed(6),
                    y: needed(7),
                },
            },
            depth_ref: maybe(8),
            clamp_to_edge: false,
        },
        16 => Ex::ImageLoad {
            image: needed(0),
            coordinate: needed(1),
            array_index: maybe(2),
            sample: maybe(3),
            level: maybe(4),
        },
        17 => Ex::ImageQuery {
            image: needed(0),
            query: match slot(QUERY_FORM) {
                0 => ImageQuery::Size { level: maybe(2) },
                1 => ImageQuery::NumLevels,
                2 => ImageQuery::NumLayers,
                _ => ImageQuery::NumSamples,
            },
        },
        18 => Ex::RayQueryVertexPositions {
            query: needed(0),
            committed: true,
        },
        19 => Ex::Unary {
            op: UnaryOperator::Negate,
            expr: needed(0),
        },
        20 => Ex::Binary {
            op: BinaryOperator::Add,
            left: needed(0),
            right: needed(1),
        },
        21 => Ex::Select {
            condition: needed(0),
            accept: needed(1),
            reject: needed(2),
        },
        22 => Ex::Derivative {
            axis: DerivativeAxis::X,
            ctrl: DerivativeControl::None,
            expr: needed(0),
        },
        23 => Ex::Relational {
            fun: RelationalFunction::All,
            argument: needed(0),
        },
        24 => Ex::Math {
            fun: MathFunction::Fma,
            arg: needed(0),
            arg1: maybe(1),
            arg2: maybe(2),
            arg3: maybe(3),
        },
        25 => Ex::As {
            expr: needed(0),
            kind: ScalarKind::Sint,
            convert: None,
        },
        26 => Ex::ArrayLength(needed(0)),
        27 => Ex::CallResult(handle(slot(0))),
        28 => Ex::AtomicResult {
            ty: handle(slot(0)),
            comparison: false,
        },
        29 => Ex::WorkGroupUniformLoadResult {
            ty: handle(slot(0)),
        },
        30 => Ex::SubgroupOperationResult {
            ty: handle(slot(0)),
        },
        31 => Ex::RayQueryGetIntersection {
            query: needed(0),
            committed: false,
        },
        32 => Ex::CooperativeLoad {
            columns: CooperativeSize::Eight,
            rows: CooperativeSize::Sixteen,
            role: CooperativeRole::A,
            data: CooperativeData {
                pointer: needed(0),
                stride: needed(1),
                row_major: false,
            },
        },
        _ => Ex::CooperativeMultiplyAdd {
            a: needed(0),
            b: needed(1),
            c: needed(2),
        },
    }
}

/// What the module is after the pass, as words; or what about it makes no sense.
pub fn read(flat: &Flat, built: &Built) -> Result<After, String> {
    let module = &built.module;
    let types = old_types(built)?;
    let mut left = words(module, |at| {
        is_abstract(flat, module, at, types[at.index()])
    });
    let mut survivors = Survivors::new(flat, &left);
    for (new, old) in types.into_iter().enumerate() {
        survivors.note(TYPES, old, new as u32)?;
    }
    own_numbers(module, &mut survivors)?;
    let new_stage = built
        .stage_type
        .and_then(|old| survivors.new_number(TYPES, old));
    let handles = roads::read(module, &built.laid, new_stage)?;
    for (mention, new) in flat.each(MENTIONS).zip(handles) {
        survivors.note(mention[0] as usize, mention[1], new)?;
        left.push(MENTIONS, &[mention[0], new]);
    }
    survivors.follow(&left)?;
    let mut after = After {
        counts: std::array::from_fn(|area| left.records(area) as u32),
        maps: survivors.tagged(&mut left)?,
        areas: left.areas,
    };
    read_comments(module, &after)?;
    for area in 0..7 {
        after.areas[area].resize(flat.areas[area].len(), N);
    }
    Ok(after)
}

/// The old number of each type.
fn old_types(built: &Built) -> Result<Vec<u32>, String> {
    let types = built.module.types.iter();
    types
        .map(|(at, ty)| {
            let number = types::number(ty, &built.leaves);
            number.ok_or_else(|| format!("type at {}: {:?}", at.index(), ty.inner))
        })
        .collect()
}

/// Whether a type is abstract. Of an array of itself, which only a refused module has, the crate's `is_abstract` has no
/// end.
fn is_abstract(flat: &Flat, module: &Module, at: Handle<Type>, old: u32) -> bool {
    match types::has_an_end(flat, old as usize) {
        true => module.types[at].inner.is_abstract(&module.types),
        false => flat.record(TYPES, old as usize)[1] & ABSTRACT != 0,
    }
}

/// Notes the old numbers that elements carry, types aside.
fn own_numbers(module: &Module, survivors: &mut Survivors) -> Result<(), String> {
    let mut note = |area: usize, new: usize, own: Option<u32>| match own {
        Some(old) => survivors.note(area, old, new as u32),
        None => Ok(()),
    };
    for (at, item) in module.constants.iter() {
        note(CONSTANTS, at.index(), named_number(&item.name))?;
    }
    for (at, item) in module.overrides.iter() {
        note(OVERRIDES, at.index(), named_number(&item.name))?;
        note(OVERRIDES, at.index(), item.id.map(u32::from))?;
    }
    for (at, item) in module.global_variables.iter() {
        note(GLOBALS, at.index(), named_number(&item.name))?;
        let bound = item.binding.map(|binding| binding.group);
        note(GLOBALS, at.index(), bound)?;
    }
    for (at, item) in module.global_expressions.iter() {
        note(EXPRESSIONS, at.index(), expression_number(item))?;
    }
    Ok(())
}

/// The number that a name stands for.
fn named_number(name: &Option<String>) -> Option<u32> {
    name.as_ref()
        .map(|name| name.parse().expect("a name is a number"))
}

/// The old number that some kinds carry themselves.
fn expression_number(expression: &Expression) -> Option<u32> {
    match *expression {
        Expression::Literal(Literal::U32(old)) | Expression::FunctionArgument(old) => Some(old),
        Expression::LocalVariable(handle) => Some(word(handle)),
        Expression::AccessIndex { index, .. } => Some(index),
        _ => None,
    }
}
