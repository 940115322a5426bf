//! Records of types, constants, overrides and globals by their fields.
#![forbid(unsafe_code)]

use crate::{
    handle::{ExpressionHandle, OverrideHandle, TypeHandle},
    kinds::{Area, N},
    tail::{Record, Span, Tail},
    words::{count, flag, handle, handles, word},
};

/// What a type refers to, in the order of the kinds' numbers.
#[derive(Clone, Debug, PartialEq, Eq, Hash)]
pub enum TypeInner {
    /// 0: no handles, as a scalar.
    Leaf,
    /// 1: one base type, as a pointer or an array of fixed size.
    Base(TypeHandle),
    /// 2: an array whose size an override gives (`ArraySize::Pending`).
    Pending {
        /// The elements' type.
        base: TypeHandle,
        /// The override that gives the size.
        size: OverrideHandle,
    },
    /// 3: a run of the member pool, as a struct.
    Members(Vec<TypeHandle>),
}

/// A record of [`Area::Types`](crate::Area::Types).
#[derive(Clone, Debug, PartialEq, Eq, Hash)]
pub struct Type {
    /// What the type refers to.
    pub inner: TypeInner,
    /// Whether it has a name: a root with [`KeepUnused::Yes`](crate::KeepUnused::Yes).
    pub named: bool,
    /// Whether it is abstract: a named constant of it is no root.
    pub is_abstract: bool,
    /// Where it stands in the host's own text.
    pub span: Span,
    /// The host's own number.
    pub tag: u32,
}

impl Type {
    /// A type without a name that isn't abstract and has no span.
    pub fn new(inner: TypeInner, tag: u32) -> Self {
        Self {
            inner,
            named: false,
            is_abstract: false,
            span: Span::default(),
            tag,
        }
    }

    /// The same type with a name.
    pub fn named(self) -> Self {
        Self {
            named: true,
            ..self
        }
    }

    /// The same type, abstract.
    pub fn marked_abstract(self) -> Self {
        Self {
            is_abstract: true,
            ..self
        }
    }

    /// The same type with this span.
    pub fn at(self, span: Span) -> Self {
        Self { span, ..self }
    }

    /// The record; the members' run starts at `start`.
    pub(crate) fn encode(&self, start: u32) -> Record<{ Area::Types.tail_at() }> {
        let [kind, a, b] = match self.inner {
            TypeInner::Leaf => [0, N, N],
            TypeInner::Base(base) => [1, base.0, N],
            TypeInner::Pending { base, size } => [2, base.0, size.0],
            TypeInner::Members(ref members) => [3, start, count(members.len())],
        };
        let flags = u32::from(self.named) + 2 * u32::from(self.is_abstract);
        ([kind, flags, a, b], Tail::new(self.span, self.tag))
    }

    /// The type of a record; `pool` is the member pool.
    pub(crate) fn decode(record: Record<{ Area::Types.tail_at() }>, pool: &[u32]) -> Option<Self> {
        let ([kind, flags, a, b], Tail { span, tag }) = record;
        let inner = match kind {
            0 if a == N && b == N => TypeInner::Leaf,
            1 if b == N => TypeInner::Base(handle(a)?),
            2 => TypeInner::Pending {
                base: handle(a)?,
                size: handle(b)?,
            },
            3 => TypeInner::Members(handles(pool, a, b)?),
            _ => return None,
        };
        let named = flag(flags & !2)?;
        let is_abstract = flags & 2 != 0;
        Some(Self {
            inner,
            named,
            is_abstract,
            span,
            tag,
        })
    }
}

/// A record of [`Area::Constants`](crate::Area::Constants).
#[derive(Clone, Copy, Debug, PartialEq, Eq, Hash)]
pub struct Constant {
    /// Whether it has a name: a root, unless its type is abstract.
    pub named: bool,
    /// Its type.
    pub ty: TypeHandle,
    /// Its value.
    pub init: ExpressionHandle,
    /// Where it stands in the host's own text.
    pub span: Span,
    /// The host's own number.
    pub tag: u32,
}

impl Constant {
    pub(crate) fn encode(&self) -> Record<{ Area::Constants.tail_at() }> {
        let words = [self.named.into(), self.ty.0, self.init.0];
        (words, Tail::new(self.span, self.tag))
    }

    pub(crate) fn decode(
        ([named, ty, init], tail): Record<{ Area::Constants.tail_at() }>,
    ) -> Option<Self> {
        Some(Self {
            named: flag(named)?,
            ty: handle(ty)?,
            init: handle(init)?,
            span: tail.span,
            tag: tail.tag,
        })
    }
}

/// A record of [`Area::Overrides`](crate::Area::Overrides).
#[derive(Clone, Copy, Debug, PartialEq, Eq, Hash)]
pub struct Override {
    /// Whether it has a name: a root with [`KeepUnused::Yes`](crate::KeepUnused::Yes).
    pub named: bool,
    /// Its type.
    pub ty: TypeHandle,
    /// Its value, if it has one.
    pub init: Option<ExpressionHandle>,
    /// Where it stands in the host's own text.
    pub span: Span,
    /// The host's own number.
    pub tag: u32,
}

impl Override {
    pub(crate) fn encode(&self) -> Record<{ Area::Overrides.tail_at() }> {
        let words = [self.named.into(), self.ty.0, word(self.init)];
        (words, Tail::new(self.span, self.tag))
    }

    pub(crate) fn decode(
        ([named, ty, init], tail): Record<{ Area::Overrides.tail_at() }>,
    ) -> Option<Self> {
        Some(Self {
            named: flag(named)?,
            ty: handle(ty)?,
            init: handle(init),
            span: tail.span,
            tag: tail.tag,
        })
    }
}

/// A record of [`Area::Globals`](crate::Area::Globals), a root with
/// [`KeepUnused::Yes`](crate::KeepUnused::Yes).
#[derive(Clone, Copy, Debug, PartialEq, Eq, Hash)]
pub struct Global {
    /// Its type.
    pub ty: TypeHandle,
    /// Its first value, if it has one.
    pub init: Option<ExpressionHandle>,
    /// Where it stands in the host's own text.
    pub span: Span,
    /// The host's own number.
    pub tag: u32,
}

impl Global {
    pub(crate) fn encode(&self) -> Record<{ Area::Globals.tail_at() }> {
        let words = [self.ty.0, word(self.init)];
        (words, Tail::new(self.span, self.tag))
    }

    pub(crate) fn decode(([ty, init], tail): Record<{ Area::Globals.tail_at() }>) -> Option<Self> {
        Some(Self {
            ty: handle(ty)?,
            init: handle(init),
            span: tail.span,
            tag: tail.tag,
        })
    }
}
