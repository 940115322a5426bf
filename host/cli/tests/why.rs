//! Why an element is kept: roots of every sort, shortest chains, and agreement with the library.
#![forbid(unsafe_code)]

mod common;

use cadnohal::{Area, Element, KeepUnused, Module, N};
use cadnohal_cli::{references::elements, why::why};
use common::{example, run, Done, Good};
use std::collections::HashMap;

/// What `why` writes about an element, without and with --keep-unused.
fn says(text: &str, element: &str, no: &str, yes: &str) {
    let answer = |out: &str| Done {
        status: 0,
        out: out.into(),
        err: String::new(),
    };
    assert_eq!(run(&["why", "-", element], text), answer(no));
    assert_eq!(
        run(&["why", "--keep-unused", "-", element], text),
        answer(yes)
    );
}

const ROOTS: &str = "\
type leaf
type leaf named
type leaf abstract
constant named type=0 init=0
constant named type=2 init=1
constant type=0 init=1
override named type=0
override type=0
global type=0 init=2
expression Literal
expression Literal
expression Literal
expression Literal
mention expression=3
mention override=1
mention override=1
";

/// What is said about an element that is dropped.
fn dropped(element: &str) -> String {
    format!("{element} is dropped: no root leads to it\n")
}

#[test]
fn roots_in_both_modes() {
    let same = |element, said: &str| says(ROOTS, element, said, said);
    same(
        "expression:3",
        "expression:3 is kept:\n  expression:3 is a root: mention 0 names it\n",
    );
    same(
        "override:1",
        "override:1 is kept:\n  override:1 is a root: mention 1 names it\n",
    );
    same(
        "constant:0",
        "constant:0 is kept:\n  constant:0 is a root: it is named and its type, type:0, is not abstract\n",
    );
    for element in ["constant:1", "constant:2", "expression:1", "type:2"] {
        same(element, &dropped(element));
    }
}

#[test]
fn roots_with_keep_unused() {
    let only_yes = |element, said: &str| {
        let said = format!("{element} is kept:\n  {said}\n");
        says(ROOTS, element, &dropped(element), &said);
    };
    only_yes(
        "type:1",
        "type:1 is a root: --keep-unused keeps every named type",
    );
    only_yes(
        "override:0",
        "override:0 is a root: --keep-unused keeps every named override",
    );
    only_yes(
        "global:0",
        "global:0 is a root: --keep-unused keeps every global",
    );
    only_yes(
        "expression:2",
        "global:0 is a root: --keep-unused keeps every global\n  global:0 refers to expression:2 by init",
    );
}

#[test]
fn the_shortest_chain_is_told() {
    // Expression 0 is reached from 2 through 1, or straight from 3, in whichever order they are mentioned.
    let expressions = "\
expression Literal
expression Unary expr=0
expression Load pointer=1
expression Select condition=2 accept=2 reject=0
";
    for (mentions, place) in [([2, 3], 1), ([3, 2], 0)] {
        let [first, second] = mentions;
        let text =
            format!("{expressions}mention expression={first}\nmention expression={second}\n");
        let said = format!(
            "expression:0 is kept:\n  expression:3 is a root: mention {place} names it\n  \
             expression:3 (Select) refers to expression:0 by reject\n"
        );
        says(&text, "expression:0", &said, &said);
    }
}

#[test]
fn a_chain_through_every_arena() {
    let text = "\
type leaf
type base=0 override=0
type members=0,1 span=20,3
constant type=0 init=0 span=1,0
override type=0 init=2
global type=2 span=50,N
expression ZeroValue type=0
expression Constant constant=0
expression Compose type=0 components=0,1 span=60,9
mention global=0
";
    let said = "\
constant:0 (span 1,0) is kept:
  global:0 is a root: mention 0 names it
  global:0 (span 50,N) refers to type:2 by type
  type:2 (span 20,3) refers to type:1 by members[1]
  type:1 refers to override:0 by override
  override:0 refers to expression:2 by init
  expression:2 (Compose, span 60,9) refers to expression:1 by components[1]
  expression:1 (Constant) refers to constant:0 by constant
";
    says(text, "constant:0", said, said);
    let text = text.replace("mention global=0", "mention type=0");
    let yes = said.replace("mention 0 names it", "--keep-unused keeps every global");
    let no = "constant:0 (span 1,0) is dropped: no root leads to it\n";
    says(&text, "constant:0", no, &yes);
}

#[test]
fn the_beamformer() {
    let path = example("beamformer.txt");
    let path = path.to_str().expect("the path is UTF-8");
    let said = run(&["why", path, "type:5"], "").out;
    let expected = "\
type:5 is kept:
  constant:4 is a root: it is named and its type, type:0, is not abstract
  constant:4 refers to expression:16 by init
  expression:16 (Binary) refers to expression:14 by left
  expression:14 (Binary) refers to expression:13 by right
  expression:13 (As) refers to expression:12 by expr
  expression:12 (Constant) refers to constant:2 by constant
  constant:2 refers to type:5 by type
";
    assert_eq!(said, expected);
    let said = run(&["why", "--keep-unused", path, "constant:1"], "").out;
    assert_eq!(said, "constant:1 is dropped: no root leads to it\n");
}

/// What an element refers to, straight from the record's words as document 01 has them.
fn named(module: &Module, element: Element) -> Vec<Element> {
    let words = module.record(element.area(), element.index()).unwrap();
    let of = |area: Area, words: &[u32]| -> Vec<Element> {
        let given = words.iter().filter(|&&word| word != N);
        given
            .map(|&word| Element::new(area, word).unwrap())
            .collect()
    };
    let [types, constants, overrides, _, expressions, members, components, _] = Area::ALL;
    let run = |pool| &module.area(pool)[words[2] as usize..][..words[3] as usize];
    let parts = match (element, words[0]) {
        (Element::Type(_), 0) | (Element::Expression(_), 0..=4) => vec![],
        (Element::Type(_), 1) => vec![of(types, &words[2..3])],
        (Element::Type(_), 2) => vec![of(types, &words[2..3]), of(overrides, &words[3..4])],
        (Element::Type(_), _) => vec![of(types, run(members))],
        (Element::Constant(_) | Element::Override(_), _) => {
            vec![of(types, &words[1..2]), of(expressions, &words[2..3])]
        }
        (Element::Global(_), _) => vec![of(types, &words[..1]), of(expressions, &words[1..2])],
        (_, 5) => vec![of(constants, &words[1..2])],
        (_, 6) => vec![of(overrides, &words[1..2])],
        (_, 7 | 28..=30) => vec![of(types, &words[1..2])],
        (_, 8) => vec![of(types, &words[1..2]), of(expressions, run(components))],
        (_, 15) => vec![
            of(expressions, &words[1..6]),
            of(expressions, &words[7..10]),
        ],
        (_, 17) => vec![of(expressions, &words[1..2]), of(expressions, &words[3..4])],
        _ => vec![of(expressions, &words[1..10])],
    };
    parts.concat()
}

/// Whether an element is a root by itself, by the rules of document 01.
fn is_root(module: &Module, yes: bool, element: Element) -> bool {
    let record = module.record(element.area(), element.index()).unwrap();
    match element {
        Element::Type(_) => yes && record[1] % 2 == 1,
        Element::Constant(_) => {
            let ty = module.record(Area::Types, record[1]).unwrap();
            record[0] == 1 && ty[1] < 2
        }
        Element::Override(_) => yes && record[0] == 1,
        Element::Global(_) => yes,
        Element::Expression(_) => false,
    }
}

/// How many references lie between the roots and each element, worked out by going over all
/// references until nothing gets nearer.
fn distances(module: &Module, keep_unused: KeepUnused) -> HashMap<Element, usize> {
    let yes = keep_unused == KeepUnused::Yes;
    let mentions = module.mentions.chunks(2);
    let mentioned =
        mentions.map(|words| Element::new(Area::ALL[words[0] as usize], words[1]).unwrap());
    let own = elements(module).filter(|&element| is_root(module, yes, element));
    let mut far: HashMap<Element, usize> = mentioned.chain(own).map(|root| (root, 0)).collect();
    loop {
        let mut nearer = Vec::new();
        for (&element, &steps) in &far {
            for to in named(module, element) {
                if far.get(&to).is_none_or(|&known| known > steps + 1) {
                    nearer.push((to, steps + 1));
                }
            }
        }
        if nearer.is_empty() {
            return far;
        }
        for (to, steps) in nearer {
            let known = far.entry(to).or_insert(steps);
            *known = steps.min(*known);
        }
    }
}

/// The element that a word of an answer names.
fn parse(word: &str) -> Element {
    let (name, handle) = word.split_once(':').unwrap();
    let area = match name {
        "type" => Area::Types,
        "constant" => Area::Constants,
        "override" => Area::Overrides,
        "global" => Area::Globals,
        "expression" => Area::Expressions,
        _ => panic!("{word}"),
    };
    Element::new(area, handle.parse().unwrap()).unwrap()
}

/// Whether the steps lead from a root to `element` by references that the words have.
fn chain_holds(module: &Module, element: Element, steps: &[&str]) {
    let mut at = parse(steps[0].split_once(" is a root: ").unwrap().0.trim());
    for step in &steps[1..] {
        let (from, to) = step.split_once(" refers to ").unwrap();
        let from = parse(from.split_whitespace().next().unwrap());
        let to = parse(to.split_once(" by ").unwrap().0);
        assert_eq!(from, at, "{steps:?}");
        assert!(named(module, from).contains(&to), "{steps:?}");
        at = to;
    }
    assert_eq!(at, element, "{steps:?}");
}

#[test]
fn random_modules_agree_with_the_library() {
    let (mut kept_in_all, mut dropped_in_all, mut longest) = (0, 0, 0);
    for seed in 0..150 {
        let module = Good::module(seed, 24);
        for keep_unused in [KeepUnused::No, KeepUnused::Yes] {
            let maps = module
                .clone()
                .compact(keep_unused)
                .expect("it is accepted")
                .maps;
            let far = distances(&module, keep_unused);
            for element in elements(&module) {
                let said = why(&module, keep_unused, &maps, element).expect("no internal fault");
                let lines: Vec<&str> = said.lines().collect();
                let kept = maps.words()[element.area() as usize][element.index() as usize] != N;
                assert_eq!(lines[0].ends_with(" is kept:"), kept, "{said}");
                assert_eq!(far.contains_key(&element), kept, "{said}");
                if let Some(&steps) = far.get(&element) {
                    assert_eq!(lines.len() - 2, steps, "{said}");
                    chain_holds(&module, element, &lines[1..]);
                    longest = longest.max(steps);
                }
                *if kept {
                    &mut kept_in_all
                } else {
                    &mut dropped_in_all
                } += 1;
            }
        }
    }
    // Both answers come up often, and chains of some length.
    assert!(
        kept_in_all > 5_000 && dropped_in_all > 3_000 && longest > 5,
        "{kept_in_all} {dropped_in_all} {longest}"
    );
}
