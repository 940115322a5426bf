//! A module's eight areas, building them record by record, and reading records back.
#![forbid(unsafe_code)]

use crate::{
    expression::Expression,
    handle::{
        ConstantHandle, Element, ExpressionHandle, GlobalHandle, Handle, OverrideHandle, TypeHandle,
    },
    kinds::{Area, N},
    records::{Constant, Global, Override, Type, TypeInner},
    tail::{Record, Span, Tail},
    words::count,
};

/// A flat shader module: eight areas of words.
///
/// The areas are open and may hold any words: [`check`](Self::check) and [`compact`](Self::compact)
/// judge them. The methods that add records write whole records, start each run at its pool's end
/// and fill unused slots with N.
///
/// ```
/// use cadnohal::{Area, Module, Span, Type, TypeHandle, TypeInner, N};
///
/// let mut module = Module::new();
/// let scalar = module.add_type(Type::new(TypeInner::Leaf, 10));
/// let both = TypeInner::Members(vec![scalar, scalar]);
/// let span = Span { start: 412, length: 9 };
/// let pair = module.add_type(Type::new(both.clone(), 11).named().at(span));
/// assert_eq!(pair, TypeHandle(1));
/// assert_eq!(module.types, [0, 0, N, N, 0, 0, 10, 3, 1, 0, 2, 412, 9, 11]);
/// assert_eq!(module.members, [0, 0]);
/// let read = module.type_at(pair).expect("a good record");
/// assert_eq!((read.inner, read.named, read.span), (both, true, span));
/// assert_eq!(module.span(Area::Types, 1), Some(span));
/// ```
///
/// A record can be read back if its own words follow the rules, no handle that must be there is N,
/// and its run lies within its pool. Handles out of range, packed starts and order are left to the
/// check.
#[derive(Clone, Debug, Default, PartialEq, Eq)]
pub struct Module {
    /// Area 0: kind, flags, a, b, start, length, tag.
    pub types: Vec<u32>,
    /// Area 1: named, type, init, start, length, tag.
    pub constants: Vec<u32>,
    /// Area 2: named, type, init or N, start, length, tag.
    pub overrides: Vec<u32>,
    /// Area 3: type, init or N, start, length, tag.
    pub globals: Vec<u32>,
    /// Area 4: kind, nine slots, start, length, tag.
    pub expressions: Vec<u32>,
    /// Area 5: the member pool, type handles.
    pub members: Vec<u32>,
    /// Area 6: the component pool, expression handles.
    pub components: Vec<u32>,
    /// Area 7: area 0 to 4, handle.
    pub mentions: Vec<u32>,
}

impl Module {
    /// An empty module.
    pub fn new() -> Self {
        Self::default()
    }

    /// The words of an area.
    pub fn area(&self, area: Area) -> &[u32] {
        match area {
            Area::Types => &self.types,
            Area::Constants => &self.constants,
            Area::Overrides => &self.overrides,
            Area::Globals => &self.globals,
            Area::Expressions => &self.expressions,
            Area::Members => &self.members,
            Area::Components => &self.components,
            Area::Mentions => &self.mentions,
        }
    }

    /// The words of an area, to change.
    pub fn area_mut(&mut self, area: Area) -> &mut Vec<u32> {
        match area {
            Area::Types => &mut self.types,
            Area::Constants => &mut self.constants,
            Area::Overrides => &mut self.overrides,
            Area::Globals => &mut self.globals,
            Area::Expressions => &mut self.expressions,
            Area::Members => &mut self.members,
            Area::Components => &mut self.components,
            Area::Mentions => &mut self.mentions,
        }
    }

    /// How many whole records an area has.
    pub fn count(&self, area: Area) -> usize {
        self.area(area).len() / area.width()
    }

    /// The words of one record, `None` past the last whole one.
    pub fn record(&self, area: Area, record: u32) -> Option<&[u32]> {
        self.area(area)
            .chunks_exact(area.width())
            .nth(record as usize)
    }

    /// The span of one record, whatever its other words are; `None` past the last whole one and for
    /// the pools and the mentions, which have no spans.
    pub fn span(&self, area: Area, record: u32) -> Option<Span> {
        Some(Tail::decode(area, self.record(area, record)?)?.span)
    }

    /// Adds a type; its members go to the end of the member pool.
    pub fn add_type(&mut self, ty: Type) -> TypeHandle {
        let record = ty.encode(count(self.members.len()));
        if let TypeInner::Members(members) = &ty.inner {
            self.members.extend(members.iter().map(|member| member.0));
        }
        self.add(record)
    }

    /// Adds a constant.
    pub fn add_constant(&mut self, constant: Constant) -> ConstantHandle {
        self.add(constant.encode())
    }

    /// Adds an override.
    pub fn add_override(&mut self, r#override: Override) -> OverrideHandle {
        self.add(r#override.encode())
    }

    /// Adds a global.
    pub fn add_global(&mut self, global: Global) -> GlobalHandle {
        self.add(global.encode())
    }

    /// Adds an expression; its components go to the end of the component pool.
    pub fn add_expression(
        &mut self,
        expression: Expression,
        span: Span,
        tag: u32,
    ) -> ExpressionHandle {
        let (kind, [a, b, c, d, e, f, g, h, i]) = expression.encode(count(self.components.len()));
        if let Expression::Compose { components, .. } = &expression {
            self.components
                .extend(components.iter().map(|component| component.0));
        }
        let words = [kind, a, b, c, d, e, f, g, h, i];
        self.add((words, Tail::new(span, tag)))
    }

    /// Adds a mention: what it names is kept.
    pub fn mention(&mut self, element: impl Into<Element>) {
        let element = element.into();
        self.mentions
            .extend([element.area().code(), element.index()]);
    }

    /// The type at `handle`; `None` if there is none or its words are no good record.
    pub fn type_at(&self, handle: TypeHandle) -> Option<Type> {
        Type::decode(self.words(handle)?, &self.members)
    }

    /// The constant at `handle`; `None` if there is none or its words are no good record.
    pub fn constant_at(&self, handle: ConstantHandle) -> Option<Constant> {
        Constant::decode(self.words(handle)?)
    }

    /// The override at `handle`; `None` if there is none or its words are no good record.
    pub fn override_at(&self, handle: OverrideHandle) -> Option<Override> {
        Override::decode(self.words(handle)?)
    }

    /// The global at `handle`; `None` if there is none or its words are no good record.
    pub fn global_at(&self, handle: GlobalHandle) -> Option<Global> {
        Global::decode(self.words(handle)?)
    }

    /// The expression at `handle`, its span and its tag; `None` if there is none or its words are no
    /// good record.
    pub fn expression_at(&self, handle: ExpressionHandle) -> Option<(Expression, Span, u32)> {
        let record: Record<{ Area::Expressions.tail_at() }> = self.words(handle)?;
        let ([kind, slots @ ..], Tail { span, tag }) = record;
        let expression = Expression::decode(kind, slots, &self.components)?;
        Some((expression, span, tag))
    }

    /// The mention at place `record`; `None` if there is none or its words are no good record.
    pub fn mention_at(&self, record: u32) -> Option<Element> {
        match *self.record(Area::Mentions, record)? {
            [area, index] if index != N => Element::new(Area::from_code(area)?, index),
            _ => None,
        }
    }

    /// Adds a record's words and answers its handle.
    fn add<H: Handle, const WORDS: usize>(&mut self, (words, tail): Record<WORDS>) -> H {
        let handle = H::new(count(self.count(H::AREA)));
        let area = self.area_mut(H::AREA);
        area.extend(words);
        area.extend(tail.encode());
        handle
    }

    /// A record's words.
    fn words<H: Handle, const WORDS: usize>(&self, handle: H) -> Option<Record<WORDS>> {
        let record = self.record(H::AREA, handle.index())?;
        let words = record[..H::AREA.tail_at()].try_into().ok()?;
        Some((words, Tail::decode(H::AREA, record)?))
    }
}
