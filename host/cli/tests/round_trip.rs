//! Text to words and words to text: reading what was written gives the same words, always.
#![forbid(unsafe_code)]

mod common;

use cadnohal::{kinds, Area, Module, N};
use cadnohal_cli::format::{read, write};
use common::{Good, Random};

fn words_of(text: &str) -> Module {
    match read(text.as_bytes()) {
        Ok(text) => text.module,
        Err(fault) => panic!("{fault:?} in\n{text}"),
    }
}

/// Writes, reads and compares; answers what was written.
fn round(module: &Module) -> String {
    let text = write(module);
    let read = words_of(&text);
    for area in Area::ALL {
        assert_eq!(read.area(area), module.area(area), "{area} of\n{text}");
    }
    text
}

/// Each kind with all its slots, and its words: kind, then slots from the first.
const KINDS: [(&str, &[u32]); 34] = [
    ("Literal", &[0]),
    ("FunctionArgument", &[1]),
    ("LocalVariable", &[2]),
    ("SubgroupBallotResult", &[3]),
    ("RayQueryProceedResult", &[4]),
    ("Constant constant=7", &[5, 7]),
    ("Override override=7", &[6, 7]),
    ("ZeroValue type=7", &[7, 7]),
    ("Compose type=7 components=3,N,3", &[8, 7, 0, 3]),
    ("Access base=7 index=8", &[9, 7, 8]),
    ("AccessIndex base=7", &[10, 7]),
    ("Splat value=7", &[11, 7]),
    ("Swizzle vector=7", &[12, 7]),
    ("GlobalVariable", &[13]),
    ("Load pointer=7", &[14, 7]),
    (
        "ImageSample image=1 sampler=2 coordinate=3 array_index=4 offset=5 level=gradient:6,7 depth_ref=8",
        &[15, 1, 2, 3, 4, 5, 4, 6, 7, 8],
    ),
    (
        "ImageLoad image=1 coordinate=2 array_index=3 sample=4 level=5",
        &[16, 1, 2, 3, 4, 5],
    ),
    ("ImageQuery image=1 query=size:2", &[17, 1, 0, 2]),
    ("RayQueryVertexPositions query=7", &[18, 7]),
    ("Unary expr=7", &[19, 7]),
    ("Binary left=7 right=8", &[20, 7, 8]),
    ("Select condition=7 accept=8 reject=9", &[21, 7, 8, 9]),
    ("Derivative expr=7", &[22, 7]),
    ("Relational argument=7", &[23, 7]),
    ("Math arg=7 arg1=8 arg2=9 arg3=10", &[24, 7, 8, 9, 10]),
    ("As expr=7", &[25, 7]),
    ("ArrayLength expr=7", &[26, 7]),
    ("CallResult", &[27]),
    ("AtomicResult type=7", &[28, 7]),
    ("WorkGroupUniformLoadResult type=7", &[29, 7]),
    ("SubgroupOperationResult type=7", &[30, 7]),
    ("RayQueryGetIntersection query=7", &[31, 7]),
    ("CooperativeLoad pointer=7 stride=8", &[32, 7, 8]),
    ("CooperativeMultiplyAdd a=7 b=8 c=9", &[33, 7, 8, 9]),
];

/// An expression's words from the first ones and the tail.
fn expression(first: &[u32], tail: [u32; 3]) -> Vec<u32> {
    let mut words = first.to_vec();
    words.resize(10, N);
    words.extend(tail);
    words
}

#[test]
fn every_kind_of_expression() {
    for (text, first) in KINDS {
        let line = format!("expression {text} span=412,9 tag=99");
        let module = words_of(&line);
        let words = expression(first, [412, 9, 99]);
        assert_eq!(module.expressions, words, "{line}");
        let components: &[u32] = if first[0] == 8 { &[3, N, 3] } else { &[] };
        assert_eq!(module.components, components, "{line}");
        assert_eq!(round(&module), format!("{line}  # expression 0\n"));
    }
}

#[test]
fn forms_of_level_and_query() {
    let sample = "expression ImageSample image=1 sampler=2 coordinate=3";
    let levels = [
        ("auto", [0, N, N]),
        ("zero", [1, N, N]),
        ("exact:6", [2, 6, N]),
        ("exact:N", [2, N, N]),
        ("bias:6", [3, 6, N]),
        ("gradient:6,7", [4, 6, 7]),
        ("gradient:N,7", [4, N, 7]),
    ];
    for (level, [form, x, y]) in levels {
        let module = words_of(&format!("{sample} level={level}"));
        let words = expression(&[15, 1, 2, 3, N, N, form, x, y], [0; 3]);
        assert_eq!(module.expressions, words);
        let line = format!("{sample} level={level}  # expression 0\n");
        assert_eq!(round(&module), line);
    }
    let queries = [
        ("size", [0, N]),
        ("size:4", [0, 4]),
        ("num_levels", [1, N]),
        ("num_layers", [2, N]),
        ("num_samples", [3, N]),
    ];
    for (query, [form, level]) in queries {
        let line = format!("expression ImageQuery image=1 query={query}");
        let module = words_of(&line);
        let words = expression(&[17, 1, form, level], [0; 3]);
        assert_eq!(module.expressions, words);
        assert_eq!(round(&module), format!("{line}  # expression 0\n"));
    }
    let long = words_of("expression ImageQuery image=1 query=size:N");
    assert_eq!(long.expressions, expression(&[17, 1, 0, N], [0; 3]));
}

#[test]
fn optional_slots_left_out_are_n() {
    let cases: [(&str, &[u32]); 4] = [
        ("Math arg=7", &[24, 7]),
        ("Math arg=7 arg2=9", &[24, 7, N, 9]),
        ("ImageLoad image=1 coordinate=2", &[16, 1, 2]),
        (
            "ImageLoad image=1 coordinate=2 level=5",
            &[16, 1, 2, N, N, 5],
        ),
    ];
    for (text, first) in cases {
        let module = words_of(&format!("expression {text}"));
        assert_eq!(module.expressions, expression(first, [0; 3]), "{text}");
        assert_eq!(
            round(&module),
            format!("expression {text}  # expression 0\n")
        );
    }
}

/// Records of every other area, as they are written.
const OTHERS: &str = "\
type leaf span=1,2 tag=10
type named base=0
type abstract base=0 override=1 tag=N
type named abstract members=0,1,1 span=N,N tag=3
type members= span=0,1
constant named type=0 init=3 span=3,0 tag=4
constant type=N init=N
override type=0 span=N,0
override named type=0 init=2 tag=5
global type=0 span=7,8 tag=7
global type=1 init=2
mention type=0
mention constant=1
mention override=2
mention global=3
mention expression=N
";

#[test]
fn the_other_records() {
    let module = words_of(OTHERS);
    let types = [
        [0, 0, N, N, 1, 2, 10],
        [1, 1, 0, N, 0, 0, 0],
        [2, 2, 0, 1, 0, 0, N],
        [3, 3, 0, 3, N, N, 3],
        [3, 0, 3, 0, 0, 1, 0],
    ];
    assert_eq!(module.types, types.concat());
    assert_eq!(module.members, [0, 1, 1]);
    let constants = [[1, 0, 3, 3, 0, 4], [0, N, N, 0, 0, 0]];
    assert_eq!(module.constants, constants.concat());
    let overrides = [[0, 0, N, N, 0, 0], [1, 0, 2, 0, 0, 5]];
    assert_eq!(module.overrides, overrides.concat());
    assert_eq!(module.globals, [0, N, 7, 8, 7, 1, 2, 0, 0, 0]);
    assert_eq!(module.mentions, [0, 0, 1, 1, 2, 2, 3, 3, 4, N]);
    assert!(module.expressions.is_empty() && module.components.is_empty());
    let written = round(&module);
    let bare: Vec<&str> = written
        .lines()
        .map(|line| line.split("  #").next().unwrap())
        .filter(|line| !line.is_empty())
        .collect();
    assert_eq!(bare, OTHERS.lines().collect::<Vec<_>>());
}

#[test]
fn keys_in_any_order() {
    let text = " \tconstant tag=5   init=3\tspan=6,7 named type=0# tag=9\r\n\n\r\n#\n";
    assert_eq!(words_of(text).constants, [1, 0, 3, 6, 7, 5]);
    let module = words_of("type tag=5 override=2 abstract base=1 span=6,7 named");
    assert_eq!(module.types, [2, 3, 1, 2, 6, 7, 5]);
    let module = words_of("type span=4294967295,007 leaf");
    assert_eq!(module.types, [0, 0, N, N, N, 7, 0]);
    let module = words_of("type leaf span=0,0");
    assert_eq!(round(&module), "type leaf  # type 0\n");
}

#[test]
fn raw_words_stand_as_they_are() {
    let text =
        "raw types 1 2 N\nraw types\nraw types 4294967295 007 8 N\nraw mentions 9\nraw components 3";
    let module = words_of(text);
    assert_eq!(module.types, [1, 2, N, N, 7, 8, N]);
    assert_eq!(module.mentions, [9]);
    assert_eq!(module.components, [3]);
    round(&module);
}

#[test]
fn a_run_starts_at_the_end_of_its_pool() {
    let text = "raw members 8 9\ntype members=4\nraw members 7\ntype members=5,6";
    let module = words_of(text);
    assert_eq!(module.members, [8, 9, 4, 7, 5, 6]);
    let types = [[3, 0, 2, 1, 0, 0, 0], [3, 0, 4, 2, 0, 0, 0]];
    assert_eq!(module.types, types.concat());
    let written = "\
raw types 3 0 2 1 0 0 0  # type 0
raw types 3 0 4 2 0 0 0  # type 1

raw members 8 9 4 7 5 6
";
    assert_eq!(round(&module), written);
}

#[test]
fn what_keys_cannot_hold_is_raw() {
    let cases: [(Area, &[u32]); 16] = [
        (Area::Types, &[4, 0, N, N]),
        (Area::Types, &[0, 4, N, N]),
        (Area::Types, &[0, 0, 0, N]),
        (Area::Types, &[1, 0, 0, 0]),
        (Area::Types, &[3, 0, 1, 0]),
        (Area::Types, &[3, 0, 0, 1]),
        (Area::Types, &[3, 0, N, N]),
        (Area::Constants, &[2, 0, 0]),
        (Area::Overrides, &[N, 0, 0]),
        (Area::Mentions, &[5, 0]),
        (Area::Expressions, &[34, N, N, N, N, N, N, N, N, N]),
        (Area::Expressions, &[13, 0, N, N, N, N, N, N, N, N]),
        (Area::Expressions, &[27, N, N, N, N, N, N, N, N, 0]),
        (Area::Expressions, &[15, 0, 0, 0, N, N, 2, 0, 0, N]),
        (Area::Expressions, &[15, 0, 0, 0, N, N, 5, N, N, N]),
        (Area::Expressions, &[17, 0, 1, 0, N, N, N, N, N, N]),
    ];
    // A type that lacks its last word, and the cases with a span and without.
    let cut = (Area::Types, vec![0, 0, N, N, 412, 9]);
    let whole = cases.into_iter().flat_map(|(area, words)| {
        let tails: [&[u32]; 2] = match area {
            Area::Mentions => [&[], &[]],
            _ => [&[0, 0, 0], &[412, 9, 0]],
        };
        tails.map(|tail| (area, [words, tail].concat()))
    });
    for (area, words) in whole.chain([cut]) {
        let mut module = Module::default();
        module.area_mut(area).extend(&words);
        let text = round(&module);
        assert!(
            text.starts_with(&format!("raw {area} ")),
            "{words:?}\n{text}"
        );
    }
}

#[test]
fn one_word_changed_in_every_kind() {
    let values = [0, 1, 2, 3, 4, 5, 33, 34, N - 1, N];
    for (text, _) in KINDS {
        let good = words_of(&format!(
            "expression {text}\nexpression Compose type=0 components=1"
        ));
        for at in 0..good.expressions.len() {
            for value in values {
                let mut module = good.clone();
                module.expressions[at] = value;
                round(&module);
            }
        }
    }
    for text in ["leaf", "base=1", "base=1 override=2", "members=1,2"] {
        let good = words_of(&format!("type {text}\ntype members=0"));
        for at in 0..good.types.len() {
            for value in values {
                let mut module = good.clone();
                module.types[at] = value;
                round(&module);
            }
        }
    }
}

/// A word that is often small, often N, and sometimes anything.
fn wild(random: &mut Random) -> u32 {
    match random.below(4) {
        0 => N,
        1 => random.next() as u32,
        _ => random.below(6),
    }
}

/// A record that is often nearly good: kind, flags and runs that fit, unused slots N.
fn nearly(random: &mut Random, area: Area, ends: &mut [u32; 2]) -> Vec<u32> {
    let mut words: Vec<u32> = (0..area.width()).map(|_| wild(random)).collect();
    let kind = match area {
        Area::Types => random.below(5),
        Area::Expressions if random.once_in(3) => 8,
        Area::Expressions => random.below(35),
        _ => random.below(2),
    };
    words[0] = kind;
    if area == Area::Types {
        words[1] = random.below(5);
    }
    let slots = kinds::kind_of(area, &words).map_or(0, |kind| kind.slots.len());
    if !random.once_in(8) && area != Area::Mentions {
        words[area.slots_at() + slots..area.tail_at()].fill(N);
    }
    let run = match (area, kind) {
        (Area::Types, 3) => Some((2, &mut ends[0])),
        (Area::Expressions, 8) => Some((2, &mut ends[1])),
        _ => None,
    };
    if let Some((at, end)) = run.filter(|_| !random.once_in(6)) {
        let count = random.below(4);
        words[at..at + 2].copy_from_slice(&[*end, count]);
        *end += count;
    }
    words
}

fn wild_module(seed: u64) -> Module {
    let mut random = Random::new(seed);
    let mut module = Module::default();
    let mut ends = [0; 2];
    for area in Area::ALL {
        let count = random.below(12);
        for _ in 0..count {
            let words = match area {
                Area::Members | Area::Components => vec![wild(&mut random)],
                _ => nearly(&mut random, area, &mut ends),
            };
            module.area_mut(area).extend(words);
        }
        if random.once_in(4) {
            let stray = wild(&mut random);
            module.area_mut(area).push(stray);
        }
    }
    module
}

#[test]
fn wild_words_come_back() {
    let (mut readable, mut raw, mut runs) = (0, 0, 0);
    for seed in 0..5_000 {
        let text = round(&wild_module(seed));
        for line in text.lines() {
            match line.starts_with("raw ") {
                true => raw += 1,
                false => readable += 1,
            }
            runs += usize::from(line.contains("members=") || line.contains("components="));
        }
    }
    // Both sorts of lines are tried, and runs among the readable ones.
    assert!(
        readable > 25_000 && raw > 25_000 && runs > 1_500,
        "{readable} {raw} {runs}"
    );
}

#[test]
fn good_modules_come_back_without_a_raw_line() {
    for seed in 0..500 {
        let module = Good::module(seed, 30);
        assert_eq!(module.check(), Ok(()), "seed {seed}");
        assert!(!round(&module).contains("raw "), "seed {seed}");
    }
}

#[test]
fn what_was_written_is_written_again_the_same() {
    for seed in 0..500 {
        let text = write(&wild_module(seed));
        assert_eq!(write(&words_of(&text)), text);
    }
}
