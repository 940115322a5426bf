//! Document 01's worked cases, words before and after written out, with spans. Each lent map has a
//! word past its arena's records.

mod common;

use cadnohal::{
    Expression, ExpressionHandle, HandleMap, KeepUnused, Maps, Module, Override, Type, TypeHandle,
    TypeInner,
};
use common::{long_maps, maps, module, place, span};

const EMPTY: [&str; 8] = [""; 8];

/// Compacts and answers the counts; map words past the records are 7 before.
fn compact(module: &mut Module, keep_unused: KeepUnused) -> ([u32; 7], Maps) {
    let mut maps = long_maps(module);
    let counts = module
        .compact_into(keep_unused, &mut maps)
        .expect("accepted");
    (counts.to_array(), maps)
}

/// Sees that both passes accept the module and drop all of it.
fn drops_all(module: &Module, after: [&str; 8], maps: [&str; 5]) {
    for keep_unused in [KeepUnused::No, KeepUnused::Yes] {
        let mut module = module.clone();
        let answer = compact(&mut module, keep_unused);
        assert_eq!(answer, ([0; 7], common::maps(maps)));
        assert_eq!(module, common::module(after));
    }
}

/// The module of cases 1 and 2.
fn case_1() -> Module {
    module([
        "0 0 N N ~10  2 1 0 0 ~11",
        "",
        "0 0 1 ~0",
        "",
        "0 9*N ~20  0 9*N ~21",
        "",
        "",
        "",
    ])
}

#[test]
fn case_1_an_array_sized_by_an_override() {
    let mut after = case_1();
    let answer = compact(&mut after, KeepUnused::Yes);
    assert_eq!(
        answer,
        (
            [2, 0, 1, 0, 1, 0, 0],
            maps(["0 1 7", "7", "0 7", "7", "N 0 7"])
        )
    );
    let kept = [
        "0 0 N N ~10  2 1 0 0 ~11",
        "",
        "0 0 0 ~0",
        "",
        "0 9*N ~21  13*N",
        "",
        "",
        "",
    ];
    assert_eq!(after, module(kept));
}

#[test]
fn case_1_with_maps_of_its_own_and_cut() {
    let mut after = case_1();
    let compacted = after.compact(KeepUnused::Yes).expect("accepted");
    assert_eq!(compacted.maps, maps(["0 1", "", "0", "", "N 0"]));
    after.truncate(&compacted.counts);
    let cut = [
        "0 0 N N ~10  2 1 0 0 ~11",
        "",
        "0 0 0 ~0",
        "",
        "0 9*N ~21",
        "",
        "",
        "",
    ];
    assert_eq!(after, module(cut));
}

#[test]
fn case_2_the_same_with_no() {
    let mut after = case_1();
    let answer = compact(&mut after, KeepUnused::No);
    assert_eq!(answer, ([0; 7], maps(["N N 7", "7", "N 7", "7", "N N 7"])));
    assert_eq!(after, module(["14*N", "", "6*N", "", "26*N", "", "", ""]));
}

/// An unnamed override with this init, and an unnamed array that it sizes, both with this tag.
fn type_needs_expression(
    module: &mut Module,
    base: TypeHandle,
    init: ExpressionHandle,
    tag: u32,
) -> TypeHandle {
    let size = module.add_override(Override {
        named: false,
        ty: base,
        init: Some(init),
        span: span(tag),
        tag,
    });
    add_type(module, TypeInner::Pending { base, size }, tag)
}

/// A type without a name.
fn add_type(module: &mut Module, inner: TypeInner, tag: u32) -> TypeHandle {
    module.add_type(Type::new(inner, tag).at(span(tag)))
}

fn add_expression(module: &mut Module, expression: Expression, tag: u32) -> ExpressionHandle {
    module.add_expression(expression, span(tag), tag)
}

#[test]
fn case_3_type_expression_interdependence() {
    let mut after = Module::new();
    let scalar = add_type(&mut after, TypeInner::Leaf, 10);
    let literal = add_expression(&mut after, Expression::Literal, 20);
    let expr_end = type_needs_expression(&mut after, scalar, literal, 11);
    let ty_trace = add_type(&mut after, TypeInner::Base(expr_end), 12);
    let expr_init = add_expression(&mut after, Expression::ZeroValue(ty_trace), 21);
    after.add_override(Override {
        named: true,
        ty: scalar,
        init: Some(expr_init),
        span: span(31),
        tag: 31,
    });
    let ty_end = add_expression(&mut after, Expression::ZeroValue(scalar), 22);
    let expr_trace = add_expression(&mut after, Expression::Load { pointer: ty_end }, 23);
    let ty_init = type_needs_expression(&mut after, scalar, expr_trace, 13);
    let named = Type::new(TypeInner::Base(ty_init), 14).named();
    after.add_type(named.at(span(14)));

    let untouched = module([
        "0 0 N N ~10  2 0 0 0 ~11  1 0 1 N ~12  2 0 0 2 ~13  1 1 3 N ~14",
        "",
        "0 0 0 ~11  1 0 1 ~31  0 0 3 ~13",
        "",
        "0 9*N ~20  7 2 8*N ~21  7 0 8*N ~22  14 2 8*N ~23",
        "",
        "",
        "",
    ]);
    assert_eq!(after, untouched);
    let answer = compact(&mut after, KeepUnused::Yes);
    let whole = maps(["0 1 2 3 4 7", "7", "0 1 2 7", "7", "0 1 2 3 7"]);
    assert_eq!(answer, ([5, 0, 3, 0, 4, 0, 0], whole));
    assert_eq!(after, untouched);

    let unused = add_expression(&mut after, Expression::Literal, 24);
    type_needs_expression(&mut after, scalar, unused, 15);
    let added = module([
        "0 0 N N ~10  2 0 0 0 ~11  1 0 1 N ~12  2 0 0 2 ~13  1 1 3 N ~14  2 0 0 3 ~15",
        "",
        "0 0 0 ~11  1 0 1 ~31  0 0 3 ~13  0 0 4 ~15",
        "",
        "0 9*N ~20  7 2 8*N ~21  7 0 8*N ~22  14 2 8*N ~23  0 9*N ~24",
        "",
        "",
        "",
    ]);
    assert_eq!(after, added);
    let answer = compact(&mut after, KeepUnused::Yes);
    let gone = maps(["0 1 2 3 4 N 7", "7", "0 1 2 N 7", "7", "0 1 2 3 N 7"]);
    assert_eq!(answer, ([5, 0, 3, 0, 4, 0, 0], gone));
    let kept = module([
        "0 0 N N ~10  2 0 0 0 ~11  1 0 1 N ~12  2 0 0 2 ~13  1 1 3 N ~14  7*N",
        "",
        "0 0 0 ~11  1 0 1 ~31  0 0 3 ~13  6*N",
        "",
        "0 9*N ~20  7 2 8*N ~21  7 0 8*N ~22  14 2 8*N ~23  13*N",
        "",
        "",
        "",
    ]);
    assert_eq!(after, kept);
}

/// A leaf type, an unnamed constant with init 0, and these expressions.
fn case_4(expressions: &str) -> Module {
    module(["0 0 N N ~0", "0 0 0 ~0", "", "", expressions, "", "", ""])
}

#[test]
fn case_4_an_expression_and_the_constant_that_it_is_the_init_of() {
    assert_eq!(place(&case_4("5 0 8*N ~0")), [7, 4, 0]);
    drops_all(
        &case_4("0 9*N ~0  5 0 8*N ~1"),
        ["7*N", "6*N", "", "", "26*N", "", "", ""],
        ["N 7", "N 7", "7", "7", "N N 7"],
    );
}

/// Leaf, array sized by an override with init 1, leaf, and these expressions.
fn case_5(expressions: &str) -> Module {
    module([
        "0 0 N N ~0  2 0 0 0 ~1  0 0 N N ~2",
        "",
        "0 0 1 ~0",
        "",
        expressions,
        "",
        "",
        "",
    ])
}

#[test]
fn case_5_the_running_largest_decides() {
    assert_eq!(place(&case_5("7 2 8*N ~0  0 9*N ~1")), [7, 4, 0]);
    drops_all(
        &case_5("0 9*N ~0  0 9*N ~1  7 2 8*N ~2"),
        ["21*N", "", "6*N", "", "39*N", "", "", ""],
        ["N N N 7", "7", "N 7", "7", "N N N 7"],
    );
}

/// A named constant of a type with these flags.
fn case_6(flags: u32) -> Module {
    let mut module = module(["0 0 N N ~0", "1 0 0 ~0", "", "", "0 9*N ~0", "", "", ""]);
    module.types[1] = flags;
    module
}

#[test]
fn case_6_a_named_constant_of_an_abstract_type() {
    let mut after = case_6(2);
    let answer = compact(&mut after, KeepUnused::Yes);
    assert_eq!(answer, ([0; 7], maps(["N 7", "N 7", "7", "7", "N 7"])));
    assert_eq!(after, module(["7*N", "6*N", "", "", "13*N", "", "", ""]));

    let mut after = case_6(0);
    let answer = compact(&mut after, KeepUnused::Yes);
    assert_eq!(
        answer,
        ([1, 1, 0, 0, 1, 0, 0], maps(["0 7", "0 7", "7", "7", "0 7"]))
    );
    assert_eq!(after, case_6(0));
}

#[test]
fn case_7_ranges_of_a_map() {
    let map: HandleMap<ExpressionHandle> = HandleMap::from_words(common::words("N 0 N 1 2"));
    let range = |start, end| map.adjust_range(start..end).map_err(|error| error.number);
    assert_eq!(range(0, 1), Ok(0..0));
    assert_eq!(range(0, 2), Ok(0..1));
    assert_eq!(range(1, 4), Ok(0..2));
    assert_eq!(range(2, 5), Ok(1..3));
    assert_eq!(range(5, 5), Ok(0..0));
    assert_eq!(range(0, 6), Err(8));
    assert_eq!(range(3, 2), Err(8));
}

/// This many named leaf types, each with its place as tag.
fn leaves(count: u32) -> Module {
    let mut module = Module::new();
    for tag in 0..count {
        module.add_type(Type::new(TypeInner::Leaf, tag).named().at(span(tag)));
    }
    module
}

#[test]
fn case_8_as_many_types_as_there_may_be() {
    let mut after = leaves(65_536);
    let (counts, maps) = compact(&mut after, KeepUnused::Yes);
    assert_eq!(counts, [65_536, 0, 0, 0, 0, 0, 0]);
    assert!(maps.types.words() == [(0..65_536).collect(), vec![7]].concat());
    assert!(after == leaves(65_536));

    let (counts, maps) = compact(&mut after, KeepUnused::No);
    assert_eq!(counts, [0; 7]);
    assert!(maps.types.words() == common::words("65536*N 7"));
    assert!(after == module(["458752*N", "", "", "", "", "", "", ""]));

    assert_eq!(place(&leaves(65_537)), [2, 0, 0]);
}

/// A `Literal` and the expression under test.
fn case_9(expression: &str) -> Module {
    let expressions = format!("0 9*N ~0  {expression}");
    module(["", "", "", "", &expressions, "", "", ""])
}

#[test]
fn case_9_the_last_kind_and_the_first_that_is_none() {
    drops_all(
        &case_9("33 0 0 0 6*N ~1"),
        ["", "", "", "", "26*N", "", "", ""],
        ["7", "7", "7", "7", "N N 7"],
    );
    assert_eq!(place(&case_9("34 9*N ~1")), [4, 4, 1]);
    assert_eq!(place(&case_9("13 9*N ~1")), [5, 4, 1]);
}

#[test]
fn case_10_numbers_are_tried_in_turn() {
    let bad = module(["1 0 7 N ~0", "", "", "", "34 9*N ~0", "", "", ""]);
    assert_eq!(place(&bad), [4, 4, 0]);
}

#[test]
fn case_11_everything_empty() {
    for keep_unused in [KeepUnused::No, KeepUnused::Yes] {
        let mut after = Module::new();
        let compacted = after.compact(keep_unused).expect("accepted");
        assert_eq!(compacted.counts.to_array(), [0; 7]);
        assert_eq!(compacted.maps, maps(["", "", "", "", ""]));
        assert_eq!(after, module(EMPTY));
    }
}

#[test]
fn case_12_two_equal_mentions() {
    let mut after = Module {
        mentions: vec![0, 1, 0, 1],
        ..leaves(3)
    };
    let answer = compact(&mut after, KeepUnused::No);
    assert_eq!(
        answer,
        ([1, 0, 0, 0, 0, 0, 0], maps(["N 0 N 7", "7", "7", "7", "7"]))
    );
    assert_eq!(
        after,
        module(["0 1 N N ~1  14*N", "", "", "", "", "", "", "0 0 0 0"])
    );
}
