//! A module's references as a graph for Graphviz.

use crate::{
    format::singular,
    references::{elements, kept, kind, references, roots, span, Reference},
};
use cadnohal::{Element, KeepUnused, Maps, Module};
use std::{collections::HashSet, fmt::Write};

/// Draws `module`, as it was before the pass that gave `maps`: kept elements are filled, dropped ones
/// dashed, roots have a double line, and each reference is an edge.
pub fn graph(module: &Module, keep_unused: KeepUnused, maps: &Maps) -> String {
    let roots = roots(module, keep_unused);
    let roots: HashSet<Element> = roots.into_iter().map(|(root, _)| root).collect();
    let mut out = String::from("digraph module {\n  rankdir=LR;\n  node [shape=box];\n");
    for element in elements(module) {
        let style = match kept(maps, element) {
            true => "filled",
            false => "dashed",
        };
        let double = match roots.contains(&element) {
            true => ", peripheries=2",
            false => "",
        };
        let (id, label) = (id(element), label(module, element));
        writeln!(out, "  {id} [label=\"{label}\", style={style}{double}];")
            .expect("a string takes all");
    }
    for element in elements(module) {
        for Reference { to, by } in references(module, element) {
            let (from, to) = (id(element), id(to));
            writeln!(out, "  {from} -> {to} [label=\"{by}\"];").expect("a string takes all");
        }
    }
    out.push_str("}\n");
    out
}

fn id(element: Element) -> String {
    format!("{}_{}", singular(element.area()), element.index())
}

/// The element's name; below it an expression's kind, and the span if there is one.
fn label(module: &Module, element: Element) -> String {
    let name = format!("{} {}", singular(element.area()), element.index());
    let known = [kind(module, element), span(module, element)];
    let lines: Vec<String> = [name]
        .into_iter()
        .chain(known.into_iter().flatten())
        .collect();
    lines.join("\\n")
}
