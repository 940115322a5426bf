//! Graphs for Graphviz, held to exact text.
#![forbid(unsafe_code)]

mod common;

use common::{run, Done};

/// The module of case 1.
const CASE_1: &str = "\
type leaf tag=10
type named base=0 override=0 span=17,4 tag=11
override type=0 init=1
expression Literal tag=20
expression Literal span=35,N tag=21
";

fn graph(arguments: &[&str], text: &str) -> String {
    let Done { status, out, err } = run(arguments, text);
    assert_eq!((status, err.as_str()), (0, ""));
    out
}

#[test]
fn case_1_with_keep_unused() {
    let expected = r#"digraph module {
  rankdir=LR;
  node [shape=box];
  type_0 [label="type 0", style=filled];
  type_1 [label="type 1\nspan 17,4", style=filled, peripheries=2];
  override_0 [label="override 0", style=filled];
  expression_0 [label="expression 0\nLiteral", style=dashed];
  expression_1 [label="expression 1\nLiteral\nspan 35,N", style=filled];
  type_1 -> type_0 [label="base"];
  type_1 -> override_0 [label="override"];
  override_0 -> type_0 [label="type"];
  override_0 -> expression_1 [label="init"];
}
"#;
    assert_eq!(graph(&["graph", "--keep-unused", "-"], CASE_1), expected);
    assert_eq!(graph(&["graph", "--keep-unused", "-"], CASE_1), expected);
}

#[test]
fn case_1_without() {
    let expected = r#"digraph module {
  rankdir=LR;
  node [shape=box];
  type_0 [label="type 0", style=dashed];
  type_1 [label="type 1\nspan 17,4", style=dashed];
  override_0 [label="override 0", style=dashed];
  expression_0 [label="expression 0\nLiteral", style=dashed];
  expression_1 [label="expression 1\nLiteral\nspan 35,N", style=dashed];
  type_1 -> type_0 [label="base"];
  type_1 -> override_0 [label="override"];
  override_0 -> type_0 [label="type"];
  override_0 -> expression_1 [label="init"];
}
"#;
    assert_eq!(graph(&["graph", "-"], CASE_1), expected);
}

#[test]
fn an_empty_module() {
    let expected = "digraph module {\n  rankdir=LR;\n  node [shape=box];\n}\n";
    assert_eq!(graph(&["graph", "-"], ""), expected);
}

/// An expression as the last of nine, and the edges that it has: slot and target.
const EDGES: [(&str, &[(&str, &str)]); 32] = [
    ("Literal", &[]),
    ("FunctionArgument", &[]),
    ("LocalVariable", &[]),
    ("SubgroupBallotResult", &[]),
    ("RayQueryProceedResult", &[]),
    ("Constant constant=1", &[("constant", "constant_1")]),
    ("Override override=1", &[("override", "override_1")]),
    ("ZeroValue type=1", &[("type", "type_1")]),
    (
        "Compose type=1 components=2,2,3",
        &[
            ("type", "type_1"),
            ("components[0]", "expression_2"),
            ("components[1]", "expression_2"),
            ("components[2]", "expression_3"),
        ],
    ),
    ("Access base=2 index=3", &[("base", "expression_2"), ("index", "expression_3")]),
    ("AccessIndex base=2", &[("base", "expression_2")]),
    ("Splat value=2", &[("value", "expression_2")]),
    ("Swizzle vector=2", &[("vector", "expression_2")]),
    ("Load pointer=2", &[("pointer", "expression_2")]),
    (
        "ImageSample image=0 sampler=1 coordinate=2 array_index=3 offset=4 level=gradient:5,6 depth_ref=7",
        &[
            ("image", "expression_0"),
            ("sampler", "expression_1"),
            ("coordinate", "expression_2"),
            ("array_index", "expression_3"),
            ("offset", "expression_4"),
            ("level.x", "expression_5"),
            ("level.y", "expression_6"),
            ("depth_ref", "expression_7"),
        ],
    ),
    (
        "ImageLoad image=0 coordinate=1 array_index=2 sample=3 level=4",
        &[
            ("image", "expression_0"),
            ("coordinate", "expression_1"),
            ("array_index", "expression_2"),
            ("sample", "expression_3"),
            ("level", "expression_4"),
        ],
    ),
    ("ImageQuery image=0 query=size:1", &[("image", "expression_0"), ("query.level", "expression_1")]),
    ("RayQueryVertexPositions query=2", &[("query", "expression_2")]),
    ("Unary expr=2", &[("expr", "expression_2")]),
    ("Binary left=2 right=3", &[("left", "expression_2"), ("right", "expression_3")]),
    (
        "Select condition=2 accept=3 reject=4",
        &[
            ("condition", "expression_2"),
            ("accept", "expression_3"),
            ("reject", "expression_4"),
        ],
    ),
    ("Derivative expr=2", &[("expr", "expression_2")]),
    ("Relational argument=2", &[("argument", "expression_2")]),
    (
        "Math arg=2 arg1=3 arg3=4",
        &[("arg", "expression_2"), ("arg1", "expression_3"), ("arg3", "expression_4")],
    ),
    ("As expr=2", &[("expr", "expression_2")]),
    ("ArrayLength expr=2", &[("expr", "expression_2")]),
    ("AtomicResult type=1", &[("type", "type_1")]),
    ("WorkGroupUniformLoadResult type=1", &[("type", "type_1")]),
    ("SubgroupOperationResult type=1", &[("type", "type_1")]),
    ("RayQueryGetIntersection query=2", &[("query", "expression_2")]),
    ("CooperativeLoad pointer=2 stride=3", &[("pointer", "expression_2"), ("stride", "expression_3")]),
    (
        "CooperativeMultiplyAdd a=2 b=3 c=4",
        &[("a", "expression_2"), ("b", "expression_3"), ("c", "expression_4")],
    ),
];

#[test]
fn the_edges_of_every_kind() {
    let before = "\
type leaf
type leaf tag=1
constant type=0 init=0
constant type=0 init=0
override type=0
override type=0
";
    for (expression, edges) in EDGES {
        let literals = "expression Literal\n".repeat(8);
        let text = format!("{before}{literals}expression {expression}\nmention expression=8\n");
        let out = graph(&["graph", "-"], &text);
        let kind = expression.split(' ').next().unwrap();
        let node = format!(
            "  expression_8 [label=\"expression 8\\n{kind}\", style=filled, peripheries=2];"
        );
        assert!(out.lines().any(|line| line == node), "{out}");
        let found: Vec<&str> = out
            .lines()
            .filter(|line| line.starts_with("  expression_8 ->"))
            .collect();
        let edge =
            |(slot, to): &(&str, &str)| format!("  expression_8 -> {to} [label=\"{slot}\"];");
        let expected: Vec<String> = edges.iter().map(edge).collect();
        assert_eq!(found, expected, "{expression}");
        for (_, to) in edges {
            let kept = format!("  {to} [");
            let line = out.lines().find(|line| line.starts_with(&kept)).unwrap();
            assert!(line.contains("style=filled"), "{line}");
        }
    }
}

#[test]
fn members_and_globals() {
    let text = "type leaf\ntype members=0,0\nglobal type=1 init=0\nexpression Literal\nmention global=0\nmention type=0\n";
    let expected = r#"digraph module {
  rankdir=LR;
  node [shape=box];
  type_0 [label="type 0", style=filled, peripheries=2];
  type_1 [label="type 1", style=filled];
  global_0 [label="global 0", style=filled, peripheries=2];
  expression_0 [label="expression 0\nLiteral", style=filled];
  type_1 -> type_0 [label="members[0]"];
  type_1 -> type_0 [label="members[1]"];
  global_0 -> type_1 [label="type"];
  global_0 -> expression_0 [label="init"];
}
"#;
    assert_eq!(graph(&["graph", "-"], text), expected);
}
