//! Building records and reading them back.

mod common;

use cadnohal::kinds::{self, Holds};
use cadnohal::{
    Area, Constant, ConstantHandle, Element, Expression, ExpressionHandle, Global, GlobalHandle,
    ImageQuery, Module, Override, OverrideHandle, SampleLevel, Span, Type, TypeHandle, TypeInner,
    N,
};
use common::{module, place, slots, span, words};

const fn e(place: u32) -> ExpressionHandle {
    ExpressionHandle(place)
}

/// A span and, in [`words`], the two words that it is.
const SPAN: Span = Span {
    start: 412,
    length: 9,
};

/// A module with one type, one constant, one override and nine expressions to name.
fn stage() -> Module {
    let mut module = module(["0 0 N N ~10", "0 0 0 ~11", "0 0 N ~12", "", "", "", "", ""]);
    for tag in 0..9 {
        module.add_expression(Expression::Literal, span(tag), tag);
    }
    module
}

/// All kinds, some in several forms, with the slots that they are written as.
fn expressions() -> Vec<(Expression, &'static str)> {
    use Expression as Ex;
    let ty = TypeHandle(0);
    let sample = |level, array_index, offset, depth_ref| Ex::ImageSample {
        image: e(8),
        sampler: e(7),
        coordinate: e(6),
        array_index,
        offset,
        level,
        depth_ref,
    };
    let query = |query| Ex::ImageQuery { image: e(3), query };
    let gradient = SampleLevel::Gradient { x: e(3), y: e(2) };
    vec![
        (Ex::Literal, "0 9*N"),
        (Ex::FunctionArgument, "1 9*N"),
        (Ex::LocalVariable, "2 9*N"),
        (Ex::SubgroupBallotResult, "3 9*N"),
        (Ex::RayQueryProceedResult, "4 9*N"),
        (Ex::Constant(ConstantHandle(0)), "5 0 8*N"),
        (Ex::Override(OverrideHandle(0)), "6 0 8*N"),
        (Ex::ZeroValue(ty), "7 0 8*N"),
        (
            Ex::Compose {
                ty,
                components: vec![e(4), e(2), e(4)],
            },
            "8 0 0 3 6*N",
        ),
        (
            Ex::Compose {
                ty,
                components: vec![],
            },
            "8 0 0 0 6*N",
        ),
        (
            Ex::Access {
                base: e(3),
                index: e(1),
            },
            "9 3 1 7*N",
        ),
        (Ex::AccessIndex { base: e(2) }, "10 2 8*N"),
        (Ex::Splat { value: e(3) }, "11 3 8*N"),
        (Ex::Swizzle { vector: e(4) }, "12 4 8*N"),
        (Ex::GlobalVariable, "13 9*N"),
        (Ex::Load { pointer: e(5) }, "14 5 8*N"),
        (
            sample(SampleLevel::Auto, None, None, None),
            "15 8 7 6 N N 0 N N N",
        ),
        (
            sample(SampleLevel::Zero, Some(e(5)), None, None),
            "15 8 7 6 5 N 1 N N N",
        ),
        (
            sample(SampleLevel::Exact(e(3)), None, Some(e(4)), None),
            "15 8 7 6 N 4 2 3 N N",
        ),
        (
            sample(SampleLevel::Bias(e(3)), None, None, Some(e(1))),
            "15 8 7 6 N N 3 3 N 1",
        ),
        (
            sample(gradient, Some(e(5)), Some(e(4)), Some(e(1))),
            "15 8 7 6 5 4 4 3 2 1",
        ),
        (
            Ex::ImageLoad {
                image: e(1),
                coordinate: e(2),
                array_index: None,
                sample: None,
                level: None,
            },
            "16 1 2 7*N",
        ),
        (
            Ex::ImageLoad {
                image: e(1),
                coordinate: e(2),
                array_index: Some(e(3)),
                sample: Some(e(4)),
                level: Some(e(5)),
            },
            "16 1 2 3 4 5 4*N",
        ),
        (query(ImageQuery::Size { level: None }), "17 3 0 7*N"),
        (
            query(ImageQuery::Size { level: Some(e(6)) }),
            "17 3 0 6 6*N",
        ),
        (query(ImageQuery::NumLevels), "17 3 1 7*N"),
        (query(ImageQuery::NumLayers), "17 3 2 7*N"),
        (query(ImageQuery::NumSamples), "17 3 3 7*N"),
        (Ex::RayQueryVertexPositions { query: e(1) }, "18 1 8*N"),
        (Ex::Unary { expr: e(2) }, "19 2 8*N"),
        (
            Ex::Binary {
                left: e(3),
                right: e(4),
            },
            "20 3 4 7*N",
        ),
        (
            Ex::Select {
                condition: e(5),
                accept: e(6),
                reject: e(7),
            },
            "21 5 6 7 6*N",
        ),
        (Ex::Derivative { expr: e(1) }, "22 1 8*N"),
        (Ex::Relational { argument: e(2) }, "23 2 8*N"),
        (
            Ex::Math {
                arg: e(1),
                arg1: None,
                arg2: None,
                arg3: None,
            },
            "24 1 8*N",
        ),
        (
            Ex::Math {
                arg: e(1),
                arg1: None,
                arg2: Some(e(3)),
                arg3: None,
            },
            "24 1 N 3 6*N",
        ),
        (
            Ex::Math {
                arg: e(1),
                arg1: Some(e(2)),
                arg2: Some(e(3)),
                arg3: Some(e(4)),
            },
            "24 1 2 3 4 5*N",
        ),
        (Ex::As { expr: e(5) }, "25 5 8*N"),
        (Ex::ArrayLength(e(6)), "26 6 8*N"),
        (Ex::CallResult, "27 9*N"),
        (Ex::AtomicResult { ty }, "28 0 8*N"),
        (Ex::WorkGroupUniformLoadResult { ty }, "29 0 8*N"),
        (Ex::SubgroupOperationResult { ty }, "30 0 8*N"),
        (Ex::RayQueryGetIntersection { query: e(1) }, "31 1 8*N"),
        (
            Ex::CooperativeLoad {
                pointer: e(2),
                stride: e(3),
            },
            "32 2 3 7*N",
        ),
        (
            Ex::CooperativeMultiplyAdd {
                a: e(4),
                b: e(5),
                c: e(6),
            },
            "33 4 5 6 6*N",
        ),
    ]
}

#[test]
fn each_kind_is_written_read_and_accepted() {
    let mut kinds = Vec::new();
    for (expression, text) in expressions() {
        let mut module = stage();
        let handle = module.add_expression(expression.clone(), SPAN, 77);
        assert_eq!(handle, e(9));
        let (_, added) = module.expressions.split_at(9 * 13);
        assert_eq!(added, words(&format!("{text} 412 9 77")));
        let read = module.expression_at(handle);
        assert_eq!(read, Some((expression.clone(), SPAN, 77)));
        let refused = matches!(
            expression,
            Expression::GlobalVariable | Expression::CallResult
        );
        assert_eq!(place(&module), if refused { [5, 4, 9] } else { [0, 0, 0] });
        kinds.push(added[0]);
    }
    kinds.dedup();
    assert_eq!(kinds, (0..34).collect::<Vec<_>>());
}

#[test]
fn runs_are_packed() {
    let mut module = Module::new();
    let ty = |inner, tag| Type::new(inner, tag).at(span(tag));
    let leaf = module.add_type(ty(TypeInner::Leaf, 1));
    let pair = module.add_type(ty(TypeInner::Members(vec![leaf, leaf]), 2));
    let none = module.add_type(ty(TypeInner::Members(vec![]), 3));
    let last = module.add_type(ty(TypeInner::Members(vec![pair, none, leaf]), 4));
    let one = module.add_expression(Expression::Literal, span(5), 5);
    let compose = |ty, components| Expression::Compose { ty, components };
    let two = module.add_expression(compose(pair, vec![one, one]), span(6), 6);
    module.add_expression(compose(last, vec![two, one, one]), span(7), 7);
    let built = common::module([
        "0 0 N N ~1  3 0 0 2 ~2  3 0 2 0 ~3  3 0 2 3 ~4",
        "",
        "",
        "",
        "0 9*N ~5  8 1 0 2 6*N ~6  8 3 2 3 6*N ~7",
        "0 0 1 2 0",
        "0 0 1 0 0",
        "",
    ]);
    assert_eq!(module, built);
    assert_eq!(place(&module), [0, 0, 0]);
}

#[test]
fn each_kind_of_type_is_written_and_read() {
    let (base, size) = (TypeHandle(0), OverrideHandle(0));
    let (leaf, on_base) = (TypeInner::Leaf, TypeInner::Base(base));
    let (pending, members) = (
        TypeInner::Pending { base, size },
        TypeInner::Members(vec![base, base]),
    );
    for (ty, text) in [
        (Type::new(leaf.clone(), 5), "0 0 N N 0 0 5"),
        (Type::new(leaf.clone(), 5).named(), "0 1 N N 0 0 5"),
        (
            Type::new(leaf.clone(), 5).marked_abstract().at(SPAN),
            "0 2 N N 412 9 5",
        ),
        (
            Type::new(leaf, N).at(SPAN).named().marked_abstract(),
            "0 3 N N 412 9 N",
        ),
        (Type::new(on_base, 6).at(span(0)), "1 0 0 N N 0 6"),
        (Type::new(pending, 7).at(SPAN), "2 0 0 0 412 9 7"),
        (Type::new(members, 8).at(SPAN), "3 0 0 2 412 9 8"),
    ] {
        let mut module = stage();
        let handle = module.add_type(ty.clone());
        assert_eq!(handle, TypeHandle(1));
        assert_eq!(module.types[7..], words(text));
        assert_eq!(module.type_at(handle), Some(ty));
        assert_eq!(place(&module), [0, 0, 0]);
    }
}

#[test]
fn constants_overrides_and_globals_are_written_and_read() {
    let (ty, init) = (TypeHandle(0), e(3));
    let mut module = stage();
    let constant = Constant {
        named: true,
        ty,
        init,
        span: SPAN,
        tag: 5,
    };
    assert_eq!(module.add_constant(constant), ConstantHandle(1));
    let with = Override {
        named: true,
        ty,
        init: Some(init),
        span: span(0),
        tag: 6,
    };
    assert_eq!(module.add_override(with), OverrideHandle(1));
    let without = Override {
        named: false,
        ty,
        init: None,
        span: SPAN,
        tag: 7,
    };
    assert_eq!(module.add_override(without), OverrideHandle(2));
    let first = Global {
        ty,
        init: Some(init),
        span: Span::default(),
        tag: 8,
    };
    assert_eq!(module.add_global(first), GlobalHandle(0));
    let second = Global {
        ty,
        init: None,
        span: SPAN,
        tag: 9,
    };
    assert_eq!(module.add_global(second), GlobalHandle(1));
    assert_eq!(module.constants[6..], words("1 0 3 412 9 5"));
    let overrides = "1 0 3 N 0 6  0 0 N 412 9 7";
    assert_eq!(module.overrides[6..], words(overrides));
    assert_eq!(module.globals, words("0 3 0 0 8  0 N 412 9 9"));
    assert_eq!(module.constant_at(ConstantHandle(1)), Some(constant));
    assert_eq!(module.override_at(OverrideHandle(1)), Some(with));
    assert_eq!(module.override_at(OverrideHandle(2)), Some(without));
    assert_eq!(module.global_at(GlobalHandle(0)), Some(first));
    assert_eq!(module.global_at(GlobalHandle(1)), Some(second));
    assert_eq!(place(&module), [0, 0, 0]);
}

#[test]
fn mentions_are_written_and_read() {
    let mut module = Module::new();
    module.mention(TypeHandle(9));
    module.mention(ConstantHandle(8));
    module.mention(OverrideHandle(7));
    module.mention(GlobalHandle(6));
    module.mention(e(5));
    module.mention(Element::Type(TypeHandle(4)));
    assert_eq!(module.mentions, words("0 9  1 8  2 7  3 6  4 5  0 4"));
    assert_eq!(module.mention_at(0), Some(Element::Type(TypeHandle(9))));
    assert_eq!(
        module.mention_at(1),
        Some(Element::Constant(ConstantHandle(8)))
    );
    assert_eq!(
        module.mention_at(2),
        Some(Element::Override(OverrideHandle(7)))
    );
    assert_eq!(module.mention_at(3), Some(Element::Global(GlobalHandle(6))));
    assert_eq!(module.mention_at(4), Some(Element::Expression(e(5))));
    assert_eq!(module.mention_at(6), None);
}

#[test]
fn bad_records_are_not_read() {
    let types = |text: &str| module([text, "", "", "", "", "0 N 0", "", ""]).type_at(TypeHandle(0));
    assert_eq!(types(""), None);
    assert_eq!(types("0 0 N N 0 0"), None);
    for text in [
        "4 0 N N ~0",
        "N 0 N N ~0",
        "0 4 N N ~0",
        "0 N N N ~0",
        "0 0 0 N ~0",
        "0 0 N 0 ~0",
        "1 0 N N ~0",
        "1 0 0 0 ~0",
        "2 0 N 0 ~0",
        "2 0 0 N ~0",
        "3 0 0 2 ~0",
        "3 0 2 2 ~0",
        "3 0 4 0 ~0",
        "3 0 N 0 ~0",
        "3 0 0 N ~0",
        "3 0 N N ~0",
    ] {
        assert_eq!(types(text), None, "{text}");
    }
    assert!(types("3 0 3 0 ~0").is_some());
    assert_eq!(
        module(["", "2 0 0 ~0", "", "", "", "", "", ""]).constant_at(ConstantHandle(0)),
        None
    );
    assert_eq!(
        module(["", "0 N 0 ~0", "", "", "", "", "", ""]).constant_at(ConstantHandle(0)),
        None
    );
    assert_eq!(
        module(["", "0 0 N ~0", "", "", "", "", "", ""]).constant_at(ConstantHandle(0)),
        None
    );
    assert_eq!(
        module(["", "", "2 0 0 ~0", "", "", "", "", ""]).override_at(OverrideHandle(0)),
        None
    );
    assert_eq!(
        module(["", "", "0 N 0 ~0", "", "", "", "", ""]).override_at(OverrideHandle(0)),
        None
    );
    assert_eq!(
        module(["", "", "", "N 0 ~0", "", "", "", ""]).global_at(GlobalHandle(0)),
        None
    );
    for text in ["5 0", "N 0", "0 N"] {
        assert_eq!(
            module(["", "", "", "", "", "", "", text]).mention_at(0),
            None,
            "{text}"
        );
    }
    let expression =
        |text: &str| module(["", "", "", "", text, "", "0 N 0", ""]).expression_at(e(0));
    assert_eq!(expression("0 9*N 0 0"), None);
    for text in [
        "34 9*N ~0",
        "N 9*N ~0",
        "0 0 8*N ~0",
        "4 8*N 0 ~0",
        "5 9*N ~0",
        "6 9*N ~0",
        "7 9*N ~0",
        "7 0 0 7*N ~0",
        "8 N 0 1 6*N ~0",
        "8 0 0 2 6*N ~0",
        "8 0 4 0 6*N ~0",
        "8 0 N 0 6*N ~0",
        "8 0 0 N 6*N ~0",
        "8 0 0 1 0 5*N ~0",
        "9 0 8*N ~0",
        "13 0 8*N ~0",
        "27 8*N 0 ~0",
        "15 0 0 0 N N 5 N N N ~0",
        "15 0 0 0 N N 0 0 N N ~0",
        "15 0 0 0 N N 1 N 0 N ~0",
        "15 0 0 0 N N 2 N N N ~0",
        "15 0 0 0 N N 3 0 0 N ~0",
        "15 0 0 0 N N 4 0 N N ~0",
        "15 0 0 N N N 0 N N N ~0",
        "16 0 8*N ~0",
        "17 0 4 7*N ~0",
        "17 0 N 7*N ~0",
        "17 0 1 0 6*N ~0",
        "17 N 0 7*N ~0",
        "24 9*N ~0",
        "33 0 0 7*N ~0",
    ] {
        assert_eq!(expression(text), None, "{text}");
    }
}

#[test]
fn the_table_names_the_variants_and_their_slots() {
    for (expression, text) in expressions() {
        let variant = format!("{expression:?}");
        let name = variant.split([' ', '(']).next();
        assert_eq!(name, Some(kinds::EXPRESSIONS[words(text)[0] as usize].name));
    }
    let written = |kind: &kinds::Kind| {
        let slots = kind.slots.iter().map(|slot| slot.name);
        std::iter::once(kind.name)
            .chain(slots)
            .collect::<Vec<_>>()
            .join(" ")
    };
    assert_eq!(
        kinds::EXPRESSIONS.each_ref().map(written),
        [
            "Literal",
            "FunctionArgument",
            "LocalVariable",
            "SubgroupBallotResult",
            "RayQueryProceedResult",
            "Constant constant",
            "Override override",
            "ZeroValue ty",
            "Compose ty start count",
            "Access base index",
            "AccessIndex base",
            "Splat value",
            "Swizzle vector",
            "GlobalVariable",
            "Load pointer",
            "ImageSample image sampler coordinate array_index offset level x y depth_ref",
            "ImageLoad image coordinate array_index sample level",
            "ImageQuery image query level",
            "RayQueryVertexPositions query",
            "Unary expr",
            "Binary left right",
            "Select condition accept reject",
            "Derivative expr",
            "Relational argument",
            "Math arg arg1 arg2 arg3",
            "As expr",
            "ArrayLength expr",
            "CallResult",
            "AtomicResult ty",
            "WorkGroupUniformLoadResult ty",
            "SubgroupOperationResult ty",
            "RayQueryGetIntersection query",
            "CooperativeLoad pointer stride",
            "CooperativeMultiplyAdd a b c",
        ]
    );
    assert_eq!(
        kinds::TYPES.each_ref().map(written),
        [
            "Leaf",
            "Base base",
            "Pending base size",
            "Members start count"
        ]
    );
    let others = [&kinds::CONSTANT, &kinds::OVERRIDE, &kinds::GLOBAL];
    assert_eq!(
        others.map(written),
        ["Constant ty init", "Override ty init", "Global ty init"]
    );
}

#[test]
fn the_table_holds_what_document_01_says() {
    for (kind, slot, role) in slots() {
        let holds = kinds::EXPRESSIONS[kind as usize]
            .slots
            .get(slot)
            .map(|slot| slot.holds);
        let expected = match (kind, slot, role) {
            (15, 6 | 7, _) | (17, 2, _) => Some(Holds::ByForm(Area::Expressions)),
            (15, _, 'f') => Some(Holds::Form(&["Auto", "Zero", "Exact", "Bias", "Gradient"])),
            (17, _, 'f') => Some(Holds::Form(&[
                "Size",
                "NumLevels",
                "NumLayers",
                "NumSamples",
            ])),
            (_, _, 't') => Some(Holds::Handle(Area::Types)),
            (_, _, 'c') => Some(Holds::Handle(Area::Constants)),
            (_, _, 'o') => Some(Holds::Handle(Area::Overrides)),
            (_, _, 'e') => Some(Holds::Handle(Area::Expressions)),
            (_, _, '?') => Some(Holds::Optional(Area::Expressions)),
            (_, _, 's') => Some(Holds::Start(Area::Components)),
            (_, _, 'n') => Some(Holds::Count(Area::Components)),
            _ => None,
        };
        assert_eq!(holds, expected, "{kind} {slot}");
    }
    let holds = |kind: &kinds::Kind| kind.slots.iter().map(|slot| slot.holds).collect::<Vec<_>>();
    let (ty, init) = (Holds::Handle(Area::Types), Holds::Handle(Area::Expressions));
    assert_eq!(holds(&kinds::TYPES[1]), [ty]);
    assert_eq!(
        holds(&kinds::TYPES[2]),
        [ty, Holds::Handle(Area::Overrides)]
    );
    assert_eq!(
        holds(&kinds::TYPES[3]),
        [Holds::Start(Area::Members), Holds::Count(Area::Members)]
    );
    assert_eq!(holds(&kinds::CONSTANT), [ty, init]);
    assert_eq!(
        holds(&kinds::OVERRIDE),
        [ty, Holds::Optional(Area::Expressions)]
    );
    assert_eq!(
        holds(&kinds::GLOBAL),
        [ty, Holds::Optional(Area::Expressions)]
    );
}

#[test]
fn kinds_are_found_by_their_words() {
    let name = |area, words: &[u32]| kinds::kind_of(area, words).map(|kind| kind.name);
    assert_eq!(name(Area::Types, &[2]), Some("Pending"));
    assert_eq!(name(Area::Types, &[4]), None);
    assert_eq!(name(Area::Types, &[]), None);
    assert_eq!(name(Area::Constants, &[]), Some("Constant"));
    assert_eq!(name(Area::Overrides, &[]), Some("Override"));
    assert_eq!(name(Area::Globals, &[]), Some("Global"));
    assert_eq!(
        name(Area::Expressions, &[33]),
        Some("CooperativeMultiplyAdd")
    );
    assert_eq!(name(Area::Expressions, &[N]), None);
    assert_eq!(name(Area::Members, &[0]), None);
    assert_eq!(name(Area::Components, &[0]), None);
    assert_eq!(name(Area::Mentions, &[0, 0]), None);
}

#[test]
fn areas_are_those_of_document_01() {
    let facts = Area::ALL.map(|area| (area.code(), area.name(), area.width(), area.limit()));
    let expected = [
        (0, "types", 7, 65_536),
        (1, "constants", 6, 65_536),
        (2, "overrides", 6, 65_536),
        (3, "globals", 5, 65_536),
        (4, "expressions", 13, 65_536),
        (5, "members", 1, 262_144),
        (6, "components", 1, 262_144),
        (7, "mentions", 2, 65_536),
    ];
    assert_eq!(facts, expected);
    assert_eq!(Area::from_code(7), Some(Area::Mentions));
    assert_eq!(Area::from_code(8), None);
    assert_eq!(N, 4_294_967_295);
}

#[test]
fn the_header_has_the_same_limits_widths_and_places() {
    let header = include_str!("../../../include/cadnohal.h");
    for area in Area::ALL {
        let begins = format!(" *   {} {area} ", area.code());
        let line = header.lines().find(|line| line.starts_with(&begins));
        let said = line.expect("a line").trim_end_matches(" records");
        assert_eq!(said.rsplit(' ').next(), Some(&*area.limit().to_string()));
        let pool = matches!(area, Area::Members | Area::Components);
        let listed = line.expect("a line").matches(", ").count() + 1;
        // Nine slots are listed as one.
        let slots = if area == Area::Expressions { 8 } else { 0 };
        assert_eq!(listed + slots, area.width(), "{area}");
        let name = area.name().trim_end_matches('s').to_uppercase();
        let width = (!pool).then_some(area.width());
        assert_eq!(defined(header, &format!("{name}_WIDTH")), width);
    }
    // The header counts from a record's end.
    for (name, place) in [
        ("SPAN_START", kinds::SPAN_START),
        ("SPAN_LENGTH", kinds::SPAN_LENGTH),
        ("TAG", kinds::TAG),
    ] {
        assert_eq!(defined(header, name), Some(kinds::TAIL - place), "{name}");
    }
}

/// The number that the header gives a name.
fn defined(header: &str, name: &str) -> Option<usize> {
    let begins = format!("#define CADNOHAL_{name} ");
    let number = header.lines().find_map(|line| line.strip_prefix(&begins))?;
    number.parse().ok()
}
