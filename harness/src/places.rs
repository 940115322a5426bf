//! Where elements hold their handles, in the order of document 01's slots. One table for both directions: words are read
//! from it, and new handles are written through it.

use crate::flat::*;
use crate::handles::{option_word, tail, word};
use naga::{
    ArraySize, Constant, Expression, Function, GlobalVariable, Handle, ImageQuery, Module,
    Override, SampleLevel, StructMember, Type, TypeInner,
};

/// What stands in one slot.
pub enum Place<'a> {
    Unused,
    Form(u32),
    Type(&'a mut Handle<Type>),
    Constant(&'a mut Handle<Constant>),
    Override(&'a mut Handle<Override>),
    Global(&'a mut Handle<GlobalVariable>),
    Function(&'a mut Handle<Function>),
    Expression(&'a mut Handle<Expression>),
    Maybe(&'a mut Option<Handle<Expression>>),
    /// The run of a `Compose`, in its start and its count.
    Components(&'a mut Vec<Handle<Expression>>),
    /// The run of a struct, in its start and its count.
    Members(&'a mut Vec<StructMember>),
}

/// A kind with its first places; the rest are unused.
fn kind<const GIVEN: usize, const ALL: usize>(
    number: u32,
    given: [Place<'_>; GIVEN],
) -> (u32, [Place<'_>; ALL]) {
    let mut places = [const { Place::Unused }; ALL];
    for (to, from) in places.iter_mut().zip(given) {
        *to = from;
    }
    (number, places)
}

/// Kind, a and b of a type.
pub fn type_places(inner: &mut TypeInner) -> (u32, [Place<'_>; 2]) {
    match inner {
        TypeInner::Pointer { base, .. } => kind(1, [Place::Type(base)]),
        TypeInner::Array { base, size, .. } | TypeInner::BindingArray { base, size } => {
            match size {
                ArraySize::Pending(item) => kind(2, [Place::Type(base), Place::Override(item)]),
                ArraySize::Constant(_) | ArraySize::Dynamic => kind(1, [Place::Type(base)]),
            }
        }
        TypeInner::Struct { members, .. } => kind(3, [Place::Members(members)]),
        _ => kind(0, []),
    }
}

/// Kind and slots of an expression.
pub fn expression_places(expression: &mut Expression) -> (u32, [Place<'_>; 9]) {
    use Expression as Ex;
    use Place::{Expression as E, Form, Maybe as M, Type as T};
    match expression {
        Ex::Literal(_) => kind(0, []),
        Ex::FunctionArgument(_) => kind(1, []),
        Ex::LocalVariable(_) => kind(2, []),
        Ex::SubgroupBallotResult => kind(3, []),
        Ex::RayQueryProceedResult => kind(4, []),
        Ex::Constant(handle) => kind(5, [Place::Constant(handle)]),
        Ex::Override(handle) => kind(6, [Place::Override(handle)]),
        Ex::ZeroValue(ty) => kind(7, [T(ty)]),
        Ex::Compose { ty, components } => kind(8, [T(ty), Place::Components(components)]),
        Ex::Access { base, index } => kind(9, [E(base), E(index)]),
        Ex::AccessIndex { base, .. } => kind(10, [E(base)]),
        Ex::Splat { value, .. } => kind(11, [E(value)]),
        Ex::Swizzle { vector, .. } => kind(12, [E(vector)]),
        Ex::GlobalVariable(handle) => kind(13, [Place::Global(handle)]),
        Ex::Load { pointer } => kind(14, [E(pointer)]),
        Ex::ImageSample {
            image,
            sampler,
            coordinate,
            array_index,
            offset,
            level,
            depth_ref,
            ..
        } => {
            let [form, x, y] = level_places(level);
            let (image, sampler, coordinate) = (E(image), E(sampler), E(coordinate));
            let (array_index, offset, depth_ref) = (M(array_index), M(offset), M(depth_ref));
            #[rustfmt::skip]
            let places = [image, sampler, coordinate, array_index, offset, form, x, y, depth_ref];
            kind(15, places)
        }
        Ex::ImageLoad {
            image,
            coordinate,
            array_index,
            sample,
            level,
        } => {
            let needed = (E(image), E(coordinate));
            kind(
                16,
                [needed.0, needed.1, M(array_index), M(sample), M(level)],
            )
        }
        Ex::ImageQuery { image, query } => match query {
            ImageQuery::Size { level } => kind(17, [E(image), Form(0), M(level)]),
            ImageQuery::NumLevels => kind(17, [E(image), Form(1)]),
            ImageQuery::NumLayers => kind(17, [E(image), Form(2)]),
            ImageQuery::NumSamples => kind(17, [E(image), Form(3)]),
        },
        Ex::RayQueryVertexPositions { query, .. } => kind(18, [E(query)]),
        Ex::Unary { expr, .. } => kind(19, [E(expr)]),
        Ex::Binary { left, right, .. } => kind(20, [E(left), E(right)]),
        Ex::Select {
            condition,
            accept,
            reject,
        } => kind(21, [E(condition), E(accept), E(reject)]),
        Ex::Derivative { expr, .. } => kind(22, [E(expr)]),
        Ex::Relational { argument, .. } => kind(23, [E(argument)]),
        Ex::Math {
            arg,
            arg1,
            arg2,
            arg3,
            ..
        } => kind(24, [E(arg), M(arg1), M(arg2), M(arg3)]),
        Ex::As { expr, .. } => kind(25, [E(expr)]),
        Ex::ArrayLength(expr) => kind(26, [E(expr)]),
        Ex::CallResult(function) => kind(27, [Place::Function(function)]),
        Ex::AtomicResult { ty, .. } => kind(28, [T(ty)]),
        Ex::WorkGroupUniformLoadResult { ty } => kind(29, [T(ty)]),
        Ex::SubgroupOperationResult { ty } => kind(30, [T(ty)]),
        Ex::RayQueryGetIntersection { query, .. } => kind(31, [E(query)]),
        Ex::CooperativeLoad { data, .. } => kind(32, [E(&mut data.pointer), E(&mut data.stride)]),
        Ex::CooperativeMultiplyAdd { a, b, c } => kind(33, [E(a), E(b), E(c)]),
    }
}

/// Form, x and y.
fn level_places(level: &mut SampleLevel) -> [Place<'_>; 3] {
    use Place::{Expression as E, Form, Unused};
    match level {
        SampleLevel::Auto => [Form(0), Unused, Unused],
        SampleLevel::Zero => [Form(1), Unused, Unused],
        SampleLevel::Exact(x) => [Form(2), E(x), Unused],
        SampleLevel::Bias(x) => [Form(3), E(x), Unused],
        SampleLevel::Gradient { x, y } => [Form(4), E(x), E(y)],
    }
}

/// Writes the words of the places, which are N before; a run goes to the pool.
fn put(places: &[Place<'_>], words: &mut [u32], pool: &mut Vec<u32>) {
    for (at, place) in places.iter().enumerate() {
        words[at] = match place {
            Place::Unused => continue,
            Place::Form(form) => *form,
            Place::Type(handle) => word(**handle),
            Place::Constant(handle) => word(**handle),
            Place::Override(handle) => word(**handle),
            Place::Global(handle) => word(**handle),
            Place::Function(handle) => word(**handle),
            Place::Expression(handle) => word(**handle),
            Place::Maybe(handle) => option_word(**handle),
            Place::Components(run) => {
                words[at + 1] = run.len() as u32;
                let start = pool.len() as u32;
                pool.extend(run.iter().map(|item| word(*item)));
                start
            }
            Place::Members(run) => {
                words[at + 1] = run.len() as u32;
                let start = pool.len() as u32;
                pool.extend(run.iter().map(|member| word(member.ty)));
                start
            }
        };
    }
}

/// The words of areas 0 to 6, with the spans that the elements have; every tag is N. `is_abstract` tells which types
/// are.
pub fn words(module: &Module, is_abstract: impl Fn(Handle<Type>) -> bool) -> Flat {
    let mut flat = Flat::default();
    for (at, ty) in module.types.iter() {
        let body = type_words(ty, is_abstract(at), &mut flat.areas[MEMBERS]);
        flat.push_with(TYPES, &body, tail(module.types.get_span(at), N));
    }
    for (at, item) in module.constants.iter() {
        let tail = tail(module.constants.get_span(at), N);
        flat.push_with(CONSTANTS, &constant_words(item), tail);
    }
    for (at, item) in module.overrides.iter() {
        let tail = tail(module.overrides.get_span(at), N);
        flat.push_with(OVERRIDES, &override_words(item), tail);
    }
    for (at, item) in module.global_variables.iter() {
        let tail = tail(module.global_variables.get_span(at), N);
        flat.push_with(GLOBALS, &global_words(item), tail);
    }
    for (at, item) in module.global_expressions.iter() {
        let body = expression_words(item, &mut flat.areas[COMPONENTS]);
        let tail = tail(module.global_expressions.get_span(at), N);
        flat.push_with(EXPRESSIONS, &body, tail);
    }
    flat
}

/// Kind, flags, a and b; the members go to the pool.
fn type_words(ty: &Type, is_abstract: bool, members: &mut Vec<u32>) -> [u32; BODIES[TYPES]] {
    let named = if ty.name.is_some() { NAMED } else { 0 };
    let flag = if is_abstract { ABSTRACT } else { 0 };
    let mut inner = ty.inner.clone();
    let (kind, places) = type_places(&mut inner);
    let mut words = [kind, named + flag, N, N];
    put(&places, &mut words[2..], members);
    words
}

/// Named, type and init.
fn constant_words(item: &Constant) -> [u32; BODIES[CONSTANTS]] {
    [item.name.is_some().into(), word(item.ty), word(item.init)]
}

/// Named, type and init.
fn override_words(item: &Override) -> [u32; BODIES[OVERRIDES]] {
    [
        item.name.is_some().into(),
        word(item.ty),
        option_word(item.init),
    ]
}

/// Type and init.
fn global_words(item: &GlobalVariable) -> [u32; BODIES[GLOBALS]] {
    [word(item.ty), option_word(item.init)]
}

/// Kind and nine slots; the components go to the pool.
fn expression_words(
    expression: &Expression,
    components: &mut Vec<u32>,
) -> [u32; BODIES[EXPRESSIONS]] {
    let mut own = expression.clone();
    let (kind, places) = expression_places(&mut own);
    let mut words = [N; BODIES[EXPRESSIONS]];
    words[0] = kind;
    put(&places, &mut words[1..], components);
    words
}
