//! Refusals 1 to 7: status 1, nothing on standard output, the refusal and its line on standard error.
#![forbid(unsafe_code)]

mod common;

use cadnohal::Area;
use cadnohal_cli::format::read;
use common::{run, Done};

/// Runs all commands on a text that is refused; `place` is how standard error begins.
fn refused(text: &str, place: &str) {
    let read = read(text.as_bytes()).expect("the text can be read");
    let refusal = read.module.check_with(&read.maps()).expect_err(text);
    let commands: [&[&str]; 6] = [
        &["check", "-"],
        &["compact", "-"],
        &["compact", "--keep-unused", "--maps", "-"],
        &["why", "-", "type:0"],
        &["why", "--keep-unused", "-", "expression:99999"],
        &["graph", "-"],
    ];
    for command in commands {
        let Done { status, out, err } = run(command, text);
        assert_eq!((status, out.as_str()), (1, ""), "{command:?} {err}");
        assert!(err.starts_with(place), "{command:?} {err}");
        let file = err.split("refusal").next().unwrap();
        assert_eq!(err, format!("{file}{refusal}\n"), "{command:?}");
    }
}

/// One record of each area, all good, with spans that no refusal tells.
const GOOD: &str = "\
type leaf named span=101,1 tag=1
type members=0,0 span=102,2 tag=2
constant named type=0 init=0 span=103,3 tag=3
override named type=0 span=104,4 tag=4
global type=1 init=0 span=105,5 tag=5
expression Literal span=106,6 tag=6
expression Compose type=1 components=0 span=107,7 tag=7
mention expression=1
";

#[test]
fn the_module_that_they_start_from_is_accepted() {
    let done = run(&["check", "-"], GOOD);
    let expected = Done {
        status: 0,
        out: "accepted\n".into(),
        err: String::new(),
    };
    assert_eq!(done, expected);
}

#[test]
fn number_1() {
    for area in Area::ALL.into_iter().filter(|area| area.width() > 1) {
        for words in 1..area.width() {
            let text = format!("{GOOD}raw {area}{}", " 0".repeat(words));
            refused(&text, &format!("<stdin>: refusal 1 at {area}: "));
        }
    }
}

/// One record of zeros more than `area` may have.
fn past_the_limit(area: Area) -> String {
    let words = (area.limit() + 1) * area.width();
    format!("raw {area}{}\n", " 0".repeat(words))
}

#[test]
fn number_2() {
    for area in Area::ALL {
        let Done { status, out, err } = run(&["compact", "-"], &past_the_limit(area));
        assert_eq!((status, out.as_str()), (1, ""), "{area} {err}");
        let begins = format!("<stdin>: refusal 2 at {area}: ");
        assert!(err.starts_with(&begins), "{err}");
    }
    let text = past_the_limit(Area::Mentions);
    refused(&text, "<stdin>: refusal 2 at mentions: ");
    // Number 1 comes first, though its area comes later.
    let text = past_the_limit(Area::Globals) + "raw mentions 0\n";
    let err = run(&["check", "-"], &text).err;
    assert!(err.starts_with("<stdin>: refusal 1 at mentions: "), "{err}");
}

#[test]
fn number_3() {
    for (arena, room) in [
        ("types", 1),
        ("constants", 0),
        ("overrides", 0),
        ("globals", 0),
        ("expressions", 1),
    ] {
        let text = format!("{GOOD}room {arena} {room}");
        refused(&text, &format!("<stdin>: refusal 3 at {arena}: "));
        let text = format!("room {arena} {}\n{GOOD}", room + 1);
        assert_eq!(run(&["check", "-"], &text).out, "accepted\n");
    }
}

#[test]
fn number_4() {
    let cases = [
        ("raw types 4 0 N N 0 0 0", "types, record 2"),
        ("raw types 0 4 N N 412 9 0", "types, record 2, span 412,9"),
        ("raw types 0 0 0 N 0 1 0", "types, record 2, span 0,1"),
        ("raw types 3 0 0 1 0 0 9", "types, record 2"),
        ("raw constants 2 0 0 1 0 0", "constants, record 1, span 1,0"),
        ("raw overrides 2 0 N N N 0", "overrides, record 1, span N,N"),
        (
            "raw expressions 34 N N N N N N N N N N 0 0",
            "expressions, record 2, span N,0",
        ),
        (
            "raw expressions 0 0 N N N N N N N N 0 0 0",
            "expressions, record 2",
        ),
        (
            "raw expressions 15 0 0 0 N N 5 N N N 412 9 0",
            "expressions, record 2, span 412,9",
        ),
        (
            "raw expressions 17 0 1 0 N N N N N N 0 0 0",
            "expressions, record 2",
        ),
        ("raw mentions 5 0", "mentions, record 1"),
    ];
    for (line, place) in cases {
        refused(
            &format!("{GOOD}{line}"),
            &format!("<stdin>:9: refusal 4 at {place}: "),
        );
    }
    for pool in ["members", "components"] {
        let text = format!("{GOOD}raw {pool} 0");
        refused(&text, &format!("<stdin>: refusal 4 at {pool}: "));
    }
}

#[test]
fn number_5() {
    let cases = [
        ("expression GlobalVariable", ""),
        ("expression CallResult span=412,9", ", span 412,9"),
        (
            "raw expressions 13 1 2 3 4 5 6 7 8 9 10 11 0",
            ", span 10,11",
        ),
    ];
    for (line, span) in cases {
        let text = format!("{GOOD}\n\n{line}");
        let place = format!("<stdin>:11: refusal 5 at expressions, record 2{span}: ");
        refused(&text, &place);
    }
}

#[test]
fn number_6() {
    let cases = [
        ("type base=3", "types, record 2"),
        ("type base=N span=1,2", "types, record 2, span 1,2"),
        ("type members=3", "types, record 2"),
        ("type base=0 override=1", "types, record 2"),
        (
            "constant type=0 init=N span=3,4",
            "constants, record 1, span 3,4",
        ),
        ("override type=2 span=5,6", "overrides, record 1, span 5,6"),
        (
            "global type=0 init=2 span=7,8",
            "globals, record 1, span 7,8",
        ),
        (
            "expression Math arg=0 arg2=3 span=9,10",
            "expressions, record 2, span 9,10",
        ),
        (
            "expression ImageSample image=0 sampler=0 coordinate=0 level=exact:N",
            "expressions, record 2",
        ),
        (
            "expression Compose type=0 components=0,N",
            "expressions, record 2",
        ),
        ("mention global=1", "mentions, record 1"),
        ("mention type=N", "mentions, record 1"),
    ];
    for (line, place) in cases {
        refused(
            &format!("{GOOD}{line}"),
            &format!("<stdin>:9: refusal 6 at {place}: "),
        );
    }
}

#[test]
fn number_7() {
    let cases = [
        ("type base=2 span=412,9", "types, record 2, span 412,9"),
        ("type members=2", "types, record 2"),
        (
            "expression Unary expr=2 span=412,9",
            "expressions, record 2, span 412,9",
        ),
        (
            "expression Compose type=0 components=0,2",
            "expressions, record 2",
        ),
    ];
    for (line, place) in cases {
        refused(
            &format!("{GOOD}{line}"),
            &format!("<stdin>:9: refusal 7 at {place}: "),
        );
    }
}

#[test]
fn cases_4_and_5_of_document_01() {
    let own_init = "type leaf\nconstant type=0 init=0\nexpression Constant constant=0\n";
    refused(own_init, "<stdin>:3: refusal 7 at expressions, record 0: ");
    let later =
        "type leaf\nconstant type=0 init=0\nexpression Literal\nexpression Constant constant=0\n";
    assert_eq!(run(&["check", "-"], later).out, "accepted\n");
    let types = "type leaf\ntype base=0 override=0\ntype leaf\noverride type=0 init=1\n";
    let early = format!("{types}expression ZeroValue type=2\nexpression Literal\n");
    refused(&early, "<stdin>:5: refusal 7 at expressions, record 0: ");
    let late = format!(
        "{types}{}expression ZeroValue type=2\n",
        "expression Literal\n".repeat(2)
    );
    assert_eq!(run(&["check", "-"], &late).out, "accepted\n");
}

#[test]
fn lower_numbers_come_first() {
    // Case 10: a type handle out of range and an expression of kind 34.
    let text = "type base=7 span=1,2\nraw expressions 34 N N N N N N N N N 3 4 0\n";
    refused(
        text,
        "<stdin>:2: refusal 4 at expressions, record 0, span 3,4: ",
    );
    refused(
        &format!("{text}room types 0"),
        "<stdin>: refusal 3 at types: ",
    );
    refused(
        &format!("{text}room types 0\nraw globals 0"),
        "<stdin>: refusal 1 at globals: ",
    );
}

#[test]
fn a_record_over_several_lines_is_refused_at_its_first() {
    let text = "raw types 0 0\nraw types N N 1 2 0 9\n\nraw types 0 N N 3 4 0";
    refused(text, "<stdin>:2: refusal 4 at types, record 1, span 3,4: ");
}

#[test]
fn a_file_is_named_in_front() {
    let path = common::example("refused/order.txt");
    let path = path.to_str().expect("the path is UTF-8");
    let Done { status, out, err } = run(&["compact", path], "");
    assert_eq!((status, out.as_str()), (1, ""));
    assert!(
        err.starts_with(&format!("{path}:4: refusal 7 at types, record 0: ")),
        "{err}"
    );
}
