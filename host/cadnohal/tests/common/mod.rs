//! Words and modules as document 01 writes them, and what every refusal must leave alone.
#![allow(dead_code)] // Each test file uses a part.

use cadnohal::{Area, HandleMap, KeepUnused, Maps, Module, Refusal, Span, N};

/// Words with white space between them; `N` is no handle, `n*w` is w written n times, `~w` is a tail
/// with tag w.
pub fn words(text: &str) -> Vec<u32> {
    let word = |text: &str| match text {
        "N" => N,
        _ => text.parse().expect("a word"),
    };
    let item = |item: &str| match (item.strip_prefix('~'), item.split_once('*')) {
        (Some(tag), _) => tail(word(tag)).to_vec(),
        (_, Some((times, text))) => vec![word(text); times.parse().expect("a number")],
        _ => vec![word(item)],
    };
    text.split_whitespace().flat_map(item).collect()
}

/// The span of a record with this tag: large words and small ones, N and 0 for tag 0.
pub fn span(tag: u32) -> Span {
    Span {
        start: N - tag,
        length: tag.wrapping_mul(0x9e37_79b9),
    }
}

/// The tail of a record with this tag.
pub fn tail(tag: u32) -> [u32; 3] {
    [span(tag).start, span(tag).length, tag]
}

/// The module of eight areas.
pub fn module(areas: [&str; 8]) -> Module {
    let [types, constants, overrides, globals, expressions, members, components, mentions] =
        areas.map(words);
    Module {
        types,
        constants,
        overrides,
        globals,
        expressions,
        members,
        components,
        mentions,
    }
}

/// The five maps.
pub fn maps(maps: [&str; 5]) -> Maps {
    maps_of(maps.map(words))
}

/// Maps one word longer than `module` has records, each word 7.
pub fn long_maps(module: &Module) -> Maps {
    maps_of(
        Maps::for_module(module)
            .words()
            .map(|map| vec![7; map.len() + 1]),
    )
}

/// The five maps of these words.
pub fn maps_of([types, constants, overrides, globals, expressions]: [Vec<u32>; 5]) -> Maps {
    Maps {
        types: HandleMap::from_words(types),
        constants: HandleMap::from_words(constants),
        overrides: HandleMap::from_words(overrides),
        globals: HandleMap::from_words(globals),
        expressions: HandleMap::from_words(expressions),
    }
}

/// What the check and both passes refuse `module` with, having seen that no word changed; `None` if
/// they accept it.
pub fn refusal_with(module: &Module, maps: &Maps) -> Option<Refusal> {
    let before = (module.clone(), maps.clone());
    let refusal = module.check_with(maps).err();
    assert!((&before.0, &before.1) == (module, maps), "changed");
    for keep_unused in [KeepUnused::No, KeepUnused::Yes] {
        let (mut module_after, mut maps_after) = before.clone();
        let answer = module_after.compact_into(keep_unused, &mut maps_after);
        assert_eq!(answer.err(), refusal);
        if refusal.is_some() {
            assert!((module_after, maps_after) == before, "changed");
        }
    }
    refusal
}

/// Number, area and record of the refusal, 0 0 0 if accepted.
pub fn place(module: &Module) -> [u32; 3] {
    place_with(module, &long_maps(module))
}

/// As [`place`], with these maps.
pub fn place_with(module: &Module, maps: &Maps) -> [u32; 3] {
    refusal_with(module, maps).map_or([0; 3], |refusal| {
        [refusal.number, refusal.area.code(), refusal.record]
    })
}

/// What each slot of each expression kind holds: `t`, `c`, `o` a type, constant or override, `e` an
/// expression that must be there, `?` one that may be N, `f` a form, `s` and `n` start and count of
/// a run, `-` nothing; a `.` isn't read. The form of 15 is 4, which names x and y; the form of 17 is
/// 0, which may have a level.
pub const ROLES: [&str; 34] = [
    "---------",
    "---------",
    "---------",
    "---------",
    "---------",
    "c--------",
    "o--------",
    "t--------",
    "tsn------",
    "ee-------",
    "e--------",
    "e--------",
    "e--------",
    ".........",
    "e--------",
    "eee??fee?",
    "ee???----",
    "ef?------",
    "e--------",
    "e--------",
    "ee-------",
    "eee------",
    "e--------",
    "e--------",
    "e???-----",
    "e--------",
    "e--------",
    ".........",
    "t--------",
    "t--------",
    "t--------",
    "e--------",
    "ee-------",
    "eee------",
];

/// The place of the expression under test in [`with_kind`].
pub const TESTED: u32 = 4;

/// A module of a leaf, a constant, an override and six expressions, of which expression 4 is of this
/// kind with every slot filled and the others are `Literal`.
pub fn with_kind(kind: u32) -> Module {
    let slots: String = ROLES[kind as usize]
        .chars()
        .map(|role| match role {
            'e' => " 1",
            '?' => " 2",
            'n' => " 3",
            'f' if kind == 15 => " 4",
            '-' | '.' => " N",
            _ => " 0",
        })
        .collect();
    let literals = "0 9*N ~20  0 9*N ~21  0 9*N ~22  0 9*N ~23";
    let expressions = format!("{literals}  {kind} {slots} ~24  0 9*N ~25");
    let components = if kind == 8 { "0 3 0" } else { "" };
    module([
        "0 0 N N ~10",
        "0 0 0 ~11",
        "0 0 N ~12",
        "",
        &expressions,
        "",
        components,
        "",
    ])
}

/// [`with_kind`] with one slot of the expression under test changed.
pub fn with_slot(kind: u32, slot: usize, word: u32) -> Module {
    let mut module = with_kind(kind);
    tested(&mut module)[1 + slot] = word;
    module
}

/// The words of the expression under test.
pub fn tested(module: &mut Module) -> &mut [u32] {
    let width = Area::Expressions.width();
    &mut module.expressions[TESTED as usize * width..][..width]
}

/// Each kind of module scope, each of its slots, and what the slot holds.
pub fn slots() -> impl Iterator<Item = (u32, usize, char)> {
    (0..34)
        .filter(|kind| ![13, 27].contains(kind))
        .flat_map(|kind| {
            let roles = ROLES[kind as usize].chars().enumerate();
            roles.map(move |(slot, role)| (kind, slot, role))
        })
}

/// A small generator of random words (xorshift).
pub struct Random(pub u32);

impl Random {
    pub fn word(&mut self) -> u32 {
        self.0 ^= self.0 << 13;
        self.0 ^= self.0 >> 17;
        self.0 ^= self.0 << 5;
        self.0
    }

    /// A number below `end`, which isn't 0.
    pub fn below(&mut self, end: u32) -> u32 {
        self.word() % end
    }
}
