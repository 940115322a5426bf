//! Handles by number. Only an arena hands them out, one for each element that it is given.

use crate::flat::{Tail, LIMITS, N, TYPES};
use naga::{
    AddressSpace, Arena, Constant, Expression, Function, GlobalVariable, Handle, LocalVariable,
    MemoryDecorations, Override, Scalar, Span, Type, TypeInner,
};
use std::sync::OnceLock;

/// Handles from here on are not made. The published sets would grow as far as the highest one.
pub const HIGHEST: u32 = LIMITS[TYPES] as u32 + (1 << 12);

/// What handles are handed out for.
pub trait Numbered: Sized + 'static {
    /// The handles below `HIGHEST`.
    fn handles() -> &'static [Handle<Self>];
}

/// Fills an arena and keeps the handles.
fn handed_out<T>(element: impl Fn() -> T) -> Vec<Handle<T>> {
    let mut arena = Arena::new();
    let each = (0..HIGHEST).map(|_| arena.append(element(), Span::default()));
    each.collect()
}

macro_rules! numbered {
    ($($name:ident: $element:expr,)*) => {$(
        impl Numbered for $name {
            fn handles() -> &'static [Handle<Self>] {
                static HANDLES: OnceLock<Vec<Handle<$name>>> = OnceLock::new();
                HANDLES.get_or_init(|| handed_out(|| $element))
            }
        }
    )*};
}

numbered! {
    Type: Type { name: None, inner: TypeInner::Scalar(Scalar::U32) },
    Expression: Expression::SubgroupBallotResult,
    Constant: Constant { name: None, ty: handle(0), init: handle(0) },
    Override: Override { name: None, id: None, ty: handle(0), init: None },
    GlobalVariable: global(None, 0, None),
    LocalVariable: LocalVariable { name: None, ty: handle(0), init: None },
    Function: Function::default(),
}

/// A global of a type; what else a global has holds no handle.
pub fn global(name: Option<String>, ty: u32, init: Option<Handle<Expression>>) -> GlobalVariable {
    GlobalVariable {
        name,
        space: AddressSpace::Private,
        binding: None,
        ty: handle(ty),
        init,
        memory_decorations: MemoryDecorations::default(),
    }
}

pub fn handle<T: Numbered>(word: u32) -> Handle<T> {
    T::handles()[word as usize]
}

pub fn word<T>(handle: Handle<T>) -> u32 {
    handle.index() as u32
}

/// N is none.
pub fn option<T: Numbered>(word: u32) -> Option<Handle<T>> {
    (word != N).then(|| handle(word))
}

pub fn option_word<T>(given: Option<Handle<T>>) -> u32 {
    given.map_or(N, word)
}

/// The span of a record with this tail. Any two words are one: where the end would be too far it begins again at 0.
pub fn span([start, length, _]: Tail) -> Span {
    Span::new(start, start.wrapping_add(length))
}

/// Start and length of a span, with a tag.
pub fn tail(span: Span, tag: u32) -> Tail {
    let (start, end) = ends(span);
    [start, end.wrapping_sub(start), tag]
}

/// The two numbers of a span.
pub fn ends(span: Span) -> (u32, u32) {
    span.to_range()
        .map_or((0, 0), |ends| (ends.start as u32, ends.end as u32))
}
