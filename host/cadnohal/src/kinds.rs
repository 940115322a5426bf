//! The eight areas and the kinds of their records: names, widths, limits and slots.
#![forbid(unsafe_code)]

use std::fmt;

/// "No handle": the word of a slot that holds nothing.
pub const N: u32 = u32::MAX;

/// The place of the span's first word in a record's tail, which begins at [`Area::tail_at`].
pub const SPAN_START: usize = 0;

/// The place of the span's second word in a record's tail.
pub const SPAN_LENGTH: usize = 1;

/// The place of the tag in a record's tail.
pub const TAG: usize = 2;

/// How many words a tail has. It ends each record of areas 0 to 4 and is the host's own: the pass
/// carries it along unread.
pub const TAIL: usize = 3;

/// One of the eight areas, in the order of their numbers.
#[derive(Clone, Copy, Debug, PartialEq, Eq, PartialOrd, Ord, Hash)]
pub enum Area {
    /// 0: kind, flags, a, b, tail.
    Types,
    /// 1: named, type, init, tail.
    Constants,
    /// 2: named, type, init or N, tail.
    Overrides,
    /// 3: type, init or N, tail.
    Globals,
    /// 4: kind, nine slots, tail.
    Expressions,
    /// 5: the member pool, one type handle a record.
    Members,
    /// 6: the component pool, one expression handle a record.
    Components,
    /// 7: area 0 to 4, handle.
    Mentions,
}

impl Area {
    /// All areas in the order of their numbers.
    pub const ALL: [Self; 8] = [
        Self::Types,
        Self::Constants,
        Self::Overrides,
        Self::Globals,
        Self::Expressions,
        Self::Members,
        Self::Components,
        Self::Mentions,
    ];

    /// The area's number, 0 to 7.
    pub const fn code(self) -> u32 {
        self as u32
    }

    /// The area with this number.
    pub fn from_code(code: u32) -> Option<Self> {
        Self::ALL.get(code as usize).copied()
    }

    /// The area's name, as in `types`.
    pub const fn name(self) -> &'static str {
        match self {
            Self::Types => "types",
            Self::Constants => "constants",
            Self::Overrides => "overrides",
            Self::Globals => "globals",
            Self::Expressions => "expressions",
            Self::Members => "members",
            Self::Components => "components",
            Self::Mentions => "mentions",
        }
    }

    /// How many words a record has.
    pub const fn width(self) -> usize {
        match self {
            Self::Members | Self::Components | Self::Mentions => self.tail_at(),
            _ => self.tail_at() + TAIL,
        }
    }

    /// How many words stand before a record's tail; in an area without tails, all.
    pub const fn tail_at(self) -> usize {
        match self {
            Self::Types => 4,
            Self::Constants | Self::Overrides => 3,
            Self::Globals => 2,
            Self::Expressions => 10,
            Self::Members | Self::Components => 1,
            Self::Mentions => 2,
        }
    }

    /// How many records the area may have.
    pub const fn limit(self) -> usize {
        match self {
            Self::Members | Self::Components => 262_144,
            _ => 65_536,
        }
    }

    /// How many words stand before a record's slots: kind and flags, kind, or `named`.
    pub const fn slots_at(self) -> usize {
        match self {
            Self::Types => 2,
            Self::Constants | Self::Overrides | Self::Expressions => 1,
            _ => 0,
        }
    }
}

impl fmt::Display for Area {
    fn fmt(&self, f: &mut fmt::Formatter<'_>) -> fmt::Result {
        f.pad(self.name())
    }
}

/// What a slot holds.
#[derive(Clone, Copy, Debug, PartialEq, Eq)]
pub enum Holds {
    /// A handle of this area, which must be there.
    Handle(Area),
    /// A handle of this area, or N.
    Optional(Area),
    /// A handle of this area or N, as the form in a slot before it says.
    ByForm(Area),
    /// A form, by the names of its numbers from 0.
    Form(&'static [&'static str]),
    /// Where a run of this pool starts.
    Start(Area),
    /// How many words of this pool the run has.
    Count(Area),
}

/// A slot by its name.
#[derive(Clone, Copy, Debug, PartialEq, Eq)]
pub struct Slot {
    /// The field's name in naga, where it has one.
    pub name: &'static str,
    /// What it holds.
    pub holds: Holds,
}

/// A kind of record: its name and the slots that it names, in order. Further slots are N.
#[derive(Clone, Copy, Debug, PartialEq, Eq)]
pub struct Kind {
    /// The kind's name.
    pub name: &'static str,
    /// Its slots from the first, which is word [`Area::slots_at`] of the record.
    pub slots: &'static [Slot],
}

const fn slot(name: &'static str, holds: Holds) -> Slot {
    Slot { name, holds }
}

const fn ty(name: &'static str) -> Slot {
    slot(name, Holds::Handle(Area::Types))
}

const fn expr(name: &'static str) -> Slot {
    slot(name, Holds::Handle(Area::Expressions))
}

const fn maybe(name: &'static str) -> Slot {
    slot(name, Holds::Optional(Area::Expressions))
}

const fn by_form(name: &'static str) -> Slot {
    slot(name, Holds::ByForm(Area::Expressions))
}

const fn kind(name: &'static str, slots: &'static [Slot]) -> Kind {
    Kind { name, slots }
}

/// The four kinds of types, in the order of their numbers.
pub const TYPES: [Kind; 4] = [
    kind("Leaf", &[]),
    kind("Base", &[ty("base")]),
    kind(
        "Pending",
        &[ty("base"), slot("size", Holds::Handle(Area::Overrides))],
    ),
    kind(
        "Members",
        &[
            slot("start", Holds::Start(Area::Members)),
            slot("count", Holds::Count(Area::Members)),
        ],
    ),
];

/// The one kind of constants.
pub const CONSTANT: Kind = kind("Constant", &[ty("ty"), expr("init")]);

/// The one kind of overrides.
pub const OVERRIDE: Kind = kind("Override", &[ty("ty"), maybe("init")]);

/// The one kind of globals.
pub const GLOBAL: Kind = kind("Global", &[ty("ty"), maybe("init")]);

/// The 34 kinds of expressions, in the order of their numbers. `GlobalVariable` and `CallResult` are
/// not of module scope and name no slot.
pub const EXPRESSIONS: [Kind; 34] = [
    kind("Literal", &[]),
    kind("FunctionArgument", &[]),
    kind("LocalVariable", &[]),
    kind("SubgroupBallotResult", &[]),
    kind("RayQueryProceedResult", &[]),
    kind(
        "Constant",
        &[slot("constant", Holds::Handle(Area::Constants))],
    ),
    kind(
        "Override",
        &[slot("override", Holds::Handle(Area::Overrides))],
    ),
    kind("ZeroValue", &[ty("ty")]),
    kind(
        "Compose",
        &[
            ty("ty"),
            slot("start", Holds::Start(Area::Components)),
            slot("count", Holds::Count(Area::Components)),
        ],
    ),
    kind("Access", &[expr("base"), expr("index")]),
    kind("AccessIndex", &[expr("base")]),
    kind("Splat", &[expr("value")]),
    kind("Swizzle", &[expr("vector")]),
    kind("GlobalVariable", &[]),
    kind("Load", &[expr("pointer")]),
    kind(
        "ImageSample",
        &[
            expr("image"),
            expr("sampler"),
            expr("coordinate"),
            maybe("array_index"),
            maybe("offset"),
            slot(
                "level",
                Holds::Form(&["Auto", "Zero", "Exact", "Bias", "Gradient"]),
            ),
            by_form("x"),
            by_form("y"),
            maybe("depth_ref"),
        ],
    ),
    kind(
        "ImageLoad",
        &[
            expr("image"),
            expr("coordinate"),
            maybe("array_index"),
            maybe("sample"),
            maybe("level"),
        ],
    ),
    kind(
        "ImageQuery",
        &[
            expr("image"),
            slot(
                "query",
                Holds::Form(&["Size", "NumLevels", "NumLayers", "NumSamples"]),
            ),
            by_form("level"),
        ],
    ),
    kind("RayQueryVertexPositions", &[expr("query")]),
    kind("Unary", &[expr("expr")]),
    kind("Binary", &[expr("left"), expr("right")]),
    kind(
        "Select",
        &[expr("condition"), expr("accept"), expr("reject")],
    ),
    kind("Derivative", &[expr("expr")]),
    kind("Relational", &[expr("argument")]),
    kind(
        "Math",
        &[expr("arg"), maybe("arg1"), maybe("arg2"), maybe("arg3")],
    ),
    kind("As", &[expr("expr")]),
    kind("ArrayLength", &[expr("expr")]),
    kind("CallResult", &[]),
    kind("AtomicResult", &[ty("ty")]),
    kind("WorkGroupUniformLoadResult", &[ty("ty")]),
    kind("SubgroupOperationResult", &[ty("ty")]),
    kind("RayQueryGetIntersection", &[expr("query")]),
    kind("CooperativeLoad", &[expr("pointer"), expr("stride")]),
    kind("CooperativeMultiplyAdd", &[expr("a"), expr("b"), expr("c")]),
];

/// The kind of a record of `area` by its words: for types and expressions the first word decides.
/// `None` for a word that is no kind, and for the pools and the mentions, which have no kinds.
pub fn kind_of(area: Area, words: &[u32]) -> Option<&'static Kind> {
    let code = || words.first().map(|&code| code as usize);
    match area {
        Area::Types => TYPES.get(code()?),
        Area::Constants => Some(&CONSTANT),
        Area::Overrides => Some(&OVERRIDE),
        Area::Globals => Some(&GLOBAL),
        Area::Expressions => EXPRESSIONS.get(code()?),
        Area::Members | Area::Components | Area::Mentions => None,
    }
}
