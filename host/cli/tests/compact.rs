//! What `compact` writes: kept records, maps, worked cases, and modules at the limits.
#![forbid(unsafe_code)]

mod common;

use cadnohal::{Area, Module, N};
use cadnohal_cli::format::{read, write};
use common::{run, tail, Done, Good};
use std::time::{Duration, Instant};

fn done(out: &str) -> Done {
    Done {
        status: 0,
        out: out.into(),
        err: String::new(),
    }
}

/// The module of case 1.
const CASE_1: &str = "\
type leaf tag=10
type base=0 override=0 named tag=11 span=17,4
override type=0 init=1 span=N,0
expression Literal tag=20 span=30,1
expression Literal span=35,2 tag=21
";

#[test]
fn cases_1_and_2() {
    let kept = "\
type leaf tag=10  # type 0
type named base=0 override=0 span=17,4 tag=11  # type 1

override type=0 init=0 span=N,0  # override 0

expression Literal span=35,2 tag=21  # expression 0
";
    assert_eq!(run(&["compact", "--keep-unused", "-"], CASE_1), done(kept));
    assert_eq!(run(&["compact", "-"], CASE_1), done(""));
    let maps = "
# map types 0 1
# map constants
# map overrides 0
# map globals
# map expressions N 0
";
    let both = format!("{kept}{maps}");
    assert_eq!(
        run(&["compact", "--maps", "--keep-unused", "-"], CASE_1),
        done(&both)
    );
    let none = "\
# map types N N
# map constants
# map overrides N
# map globals
# map expressions N N
";
    assert_eq!(run(&["compact", "--maps", "-"], CASE_1), done(none));
}

#[test]
fn case_6() {
    let text =
        |flag| format!("type leaf{flag}\nconstant named type=0 init=0\nexpression Literal\n");
    let abstract_type = text(" abstract");
    assert_eq!(
        run(&["compact", "--keep-unused", "-"], &abstract_type),
        done("")
    );
    let kept = "\
type leaf  # type 0

constant named type=0 init=0  # constant 0

expression Literal  # expression 0
";
    assert_eq!(
        run(&["compact", "--keep-unused", "-"], &text("")),
        done(kept)
    );
}

#[test]
fn cases_11_and_12() {
    assert_eq!(run(&["compact", "-"], ""), done(""));
    assert_eq!(run(&["compact", "-"], "# nothing\n\n"), done(""));
    let text =
        "type leaf tag=1\ntype leaf tag=2\ntype leaf tag=3\nmention type=1\nmention type=1\n";
    let kept =
        "type leaf tag=2  # type 0\n\nmention type=0  # mention 0\nmention type=0  # mention 1\n";
    assert_eq!(run(&["compact", "-"], text), done(kept));
}

#[test]
fn runs_are_packed_again() {
    let text = "\
type leaf tag=1
type members=0 tag=2
type leaf tag=3
type members=2,2 tag=4
expression Literal tag=5
expression Literal tag=6
expression Compose type=1 components=0 tag=7
expression Compose type=3 components=1,1 tag=8
mention expression=3
";
    let kept = "\
type leaf tag=3  # type 0
type members=0,0 tag=4  # type 1

expression Literal tag=6  # expression 0
expression Compose type=1 components=0,0 tag=8  # expression 1

mention expression=1  # mention 0
";
    assert_eq!(run(&["compact", "-"], text), done(kept));
}

#[test]
fn room_to_spare_changes_nothing() {
    let text = format!("room types 4294967295\nroom expressions 3\n{CASE_1}");
    let plain = run(&["compact", "--maps", "--keep-unused", "-"], CASE_1);
    assert_eq!(
        run(&["compact", "--maps", "--keep-unused", "-"], &text),
        plain
    );
}

#[test]
fn what_is_written_is_read_back_and_stays() {
    for seed in 0..40 {
        let text = write(&Good::module(seed, 40));
        for options in [&["compact", "-"][..], &["compact", "--keep-unused", "-"]] {
            let first = run(options, &text);
            assert_eq!((first.status, first.err.as_str()), (0, ""), "seed {seed}");
            assert_eq!(run(options, &first.out), first, "seed {seed}");
            let with_maps = run(&[options, &["--maps"]].concat(), &text).out;
            let again = read(with_maps.as_bytes()).expect("it can be read").module;
            assert_eq!(write(&again), first.out, "seed {seed}");
        }
    }
}

/// How many records an arena may have.
const MOST: usize = Area::Types.limit();

/// As many records as fit, each area full and each pool full.
fn full() -> Module {
    let mut module = Module::new();
    for handle in 0..MOST as u32 {
        let count = match handle {
            0 => 0,
            1..=4 => 5,
            _ => 4,
        };
        let run = (0..count).map(|k| (handle * 7 + k * 13) % handle);
        let (members, components) = (module.members.len(), module.components.len());
        module.types.extend([3, 1, members as u32, count]);
        module.types.extend(tail(handle));
        module.constants.extend([1, handle, handle, 0, 0, 0]);
        module.overrides.extend([1, handle, handle, 0, 0, 0]);
        module.globals.extend([handle, handle, 0, 0, 0]);
        let compose = [8, handle, components as u32, count, N, N, N, N, N, N];
        module.expressions.extend(compose);
        module.expressions.extend([0, 0, 0]);
        module.members.extend(run.clone());
        module.components.extend(run);
        module.mentions.extend([4, handle]);
    }
    for area in Area::ALL {
        assert_eq!(module.count(area), area.limit(), "{area}");
    }
    module
}

/// Far more than it takes, under an emulator or without optimisation, and less than a walk over all
/// pairs would: three seconds, and two for each megabyte of text.
fn in_time(text: &str) -> Duration {
    Duration::from_secs_f64(3.0 + 2e-6 * text.len() as f64)
}

/// What a command writes about a text that it accepts, in time.
fn written(command: &[&str], text: &str) -> String {
    let start = Instant::now();
    let Done { status, out, err } = run(command, text);
    let took = start.elapsed();
    assert_eq!((status, err.as_str()), (0, ""), "{command:?}");
    assert!(took < in_time(text), "{command:?} {took:?}");
    println!("{command:?} {took:?}");
    out
}

#[test]
fn a_full_module_in_time() {
    let text = write(&full());
    // Everything is kept; without --keep-unused nothing needs the overrides and the globals.
    let yes = written(&["compact", "--keep-unused", "--maps", "-"], &text);
    let (kept, maps) = yes.split_at(yes.find("\n# map ").expect("maps"));
    assert!(kept == text);
    let numbers = (0..MOST).map(|handle| format!(" {handle}"));
    let numbers = numbers.collect::<String>();
    let names = ["types", "constants", "overrides", "globals", "expressions"];
    let expected = names.map(|name| format!("# map {name}{numbers}\n"));
    assert!(maps == format!("\n{}", expected.concat()));
    let areas: Vec<&str> = text.split("\n\n").collect();
    let [types, constants, _, _, expressions, mentions] = areas[..] else {
        panic!("{} areas are written", areas.len());
    };
    let rest = [types, constants, expressions, mentions].join("\n\n");
    assert!(written(&["compact", "-"], &text) == rest);
}

/// The other commands over the same text; with --nocapture it tells their times.
#[test]
#[ignore = "half a minute under an emulator, and the chain below asks the same of fewer records"]
fn a_full_module_in_time_by_every_command() {
    let text = write(&full());
    assert_eq!(written(&["check", "-"], &text), "accepted\n");
    let why = written(&["why", "--keep-unused", "-", "type:0"], &text);
    assert_eq!(why.lines().next(), Some("type:0 is kept:"));
    let graph = written(&["graph", "-"], &text);
    // A line for each element and for each reference, three before and one after them.
    let references = 7 * MOST + 2 * Area::Members.limit();
    assert_eq!(graph.lines().count(), 5 * MOST + references + 4);
}

#[test]
fn a_chain_through_a_full_arena_in_time() {
    let mut text = String::from("expression Literal\n");
    for handle in 1..MOST {
        text += &format!("expression Unary expr={}\n", handle - 1);
    }
    text += &format!("mention expression={}\n", MOST - 1);
    assert_eq!(written(&["check", "-"], &text), "accepted\n");
    let why = written(&["why", "-", "expression:0"], &text);
    assert_eq!(why.lines().count(), MOST + 1);
    assert!(why.ends_with("\n  expression:1 (Unary) refers to expression:0 by expr\n"));
    let graph = written(&["graph", "-"], &text);
    assert_eq!(graph.lines().count(), MOST + (MOST - 1) + 4);
}

#[test]
fn runs_as_long_as_their_pools_in_time() {
    let handles = vec!["0"; Area::Members.limit()].join(",");
    let text = format!(
        "type leaf\ntype members={handles}\nexpression Literal\nexpression Compose type=1 components={handles}\n\
         mention expression=1\n"
    );
    let module = read(text.as_bytes()).expect("it can be read").module;
    assert!(written(&["compact", "-"], &text) == write(&module));
}

#[test]
fn a_full_module_where_little_is_kept() {
    let last = MOST - 1;
    let text = "type leaf\n".repeat(last) + "type leaf named tag=5\n";
    let text = text + &format!("mention type={last}\n");
    let kept = "type leaf named tag=5  # type 0\n\nmention type=0  # mention 0\n";
    assert_eq!(run(&["compact", "-"], &text), done(kept));
}

#[test]
fn a_text_far_beyond_the_limits_is_refused_in_time() {
    let text = "type leaf\n".repeat(10 * MOST);
    let start = Instant::now();
    let Done { status, out, err } = run(&["compact", "-"], &text);
    assert_eq!((status, out.as_str()), (1, ""));
    assert!(err.starts_with("<stdin>: refusal 2 at types: "), "{err}");
    assert!(start.elapsed() < in_time(&text));
}

#[test]
fn case_8() {
    let full = "type leaf\n".repeat(65_536);
    assert_eq!(run(&["check", "-"], &full), done("accepted\n"));
    let Done { status, out, err } = run(&["check", "-"], &format!("{full}type leaf"));
    assert_eq!((status, out.as_str()), (1, ""));
    assert!(err.starts_with("<stdin>: refusal 2 at types: "), "{err}");
}
