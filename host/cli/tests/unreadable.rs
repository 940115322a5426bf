//! Texts that can't be read: status 2, nothing on standard output, the place and the fault on standard
//! error.
#![forbid(unsafe_code)]

mod common;

use common::{run, run_bytes, Done};

/// Where the fault is, and what it is, for the text of a whole module.
fn faults(cases: &[(&str, &str)]) {
    for (text, fault) in cases {
        let expected = Done {
            status: 2,
            out: String::new(),
            err: format!("<stdin>:{fault}\n"),
        };
        assert_eq!(run(&["check", "-"], text), expected, "{text}");
    }
}

#[test]
fn unknown_names() {
    faults(&[
        ("typ leaf", "1:1: there is no record 'typ'"),
        ("Type leaf", "1:1: there is no record 'Type'"),
        (
            "type leaf\n\n  expression Lod",
            "3:14: there is no expression kind 'Lod'",
        ),
        (
            "expression literal",
            "1:12: there is no expression kind 'literal'",
        ),
        ("raw typ 1", "1:5: there is no area 'typ'"),
        ("room members 1", "1:6: there is no arena 'members'"),
        (
            "expression ImageSample level=best",
            "1:30: there is no level 'best'",
        ),
        (
            "expression ImageQuery query=length:1",
            "1:29: there is no query 'length'",
        ),
        (
            "\u{feff}type leaf",
            "1:1: there is no record '\\u{feff}type'",
        ),
        (
            "type\u{a0}leaf",
            "1:1: there is no record 'type\\u{a0}leaf'",
        ),
    ]);
}

#[test]
fn keys_that_the_record_does_not_have() {
    faults(&[
        ("type bse=0", "1:6: a type has no 'bse'"),
        ("type named lief", "1:12: a type has no 'lief'"),
        ("type leaf base=0", "1:11: a leaf type has no 'base'"),
        (
            "type base=0 members=0",
            "1:6: a type with members has no 'base'",
        ),
        (
            "type members=0 override=0",
            "1:16: a type with members has no 'override'",
        ),
        (
            "type base=0 init=0",
            "1:13: a type with a base has no 'init'",
        ),
        (
            "type base=0 override=0 size=0",
            "1:24: a type sized by an override has no 'size'",
        ),
        ("constant abstract", "1:10: a constant has no 'abstract'"),
        ("override base=0", "1:10: an override has no 'base'"),
        ("global named type=0", "1:8: a global has no 'named'"),
        ("expression Load base=0", "1:17: Load has no 'base'"),
        ("expression Literal\texpr=0", "1:20: Literal has no 'expr'"),
        (
            "expression GlobalVariable global=0",
            "1:27: GlobalVariable has no 'global'",
        ),
        (
            "expression CallResult function=0",
            "1:23: CallResult has no 'function'",
        ),
        ("mention member=0", "1:9: a mention has no 'member'"),
        ("mention =0", "1:9: a mention has no ''"),
    ]);
}

#[test]
fn keys_given_twice() {
    faults(&[
        ("type leaf tag=1 tag=1", "1:17: 'tag' is given twice"),
        (
            "type leaf span=0,0 tag=1 span=0,0",
            "1:26: 'span' is given twice",
        ),
        ("type leaf leaf", "1:11: 'leaf' is given twice"),
        ("type named base=0 named", "1:19: 'named' is given twice"),
        (
            "expression Unary expr=0 expr=0",
            "1:25: 'expr' is given twice",
        ),
        (
            "mention type=0 type=0",
            "1:16: a mention has one of type=, constant=, override=, global= or expression=",
        ),
        (
            "room types 1\nroom types 1",
            "2:1: the room for types is given twice",
        ),
        ("room types 1 2", "1:14: a room has one number of words"),
    ]);
}

/// Records that lack something, and the column of the record's name.
const LEFT_OUT: [(&str, &str); 16] = [
    ("type", "1:1: a type needs leaf, base= or members="),
    (
        "  type named tag=1",
        "1:3: a type needs leaf, base= or members=",
    ),
    (
        "type override=0",
        "1:1: a type sized by an override needs base=",
    ),
    ("constant named init=0", "1:1: a constant needs type="),
    ("constant type=0", "1:1: a constant needs init="),
    ("override init=0", "1:1: an override needs type="),
    ("global", "1:1: a global needs type="),
    ("expression", "1:1: an expression needs a kind"),
    (
        "\texpression Select accept=0",
        "1:2: Select needs condition=, reject=",
    ),
    (
        "expression Compose type=0",
        "1:1: Compose needs components=",
    ),
    (
        "expression ImageSample image=0 sampler=0 coordinate=0",
        "1:1: ImageSample needs level=",
    ),
    (
        "expression ImageQuery image=0",
        "1:1: ImageQuery needs query=",
    ),
    (
        "mention",
        "1:1: a mention needs type=, constant=, override=, global= or expression=",
    ),
    ("raw", "1:1: 'raw' needs an area"),
    ("room", "1:1: 'room' needs an arena"),
    ("room types", "1:1: a room needs a number of words"),
];

#[test]
fn slots_left_out() {
    faults(&LEFT_OUT);
}

#[test]
fn values_that_are_none() {
    faults(&[
        ("type leaf=1", "1:6: 'leaf' takes no value"),
        ("type base=0 named=1", "1:13: 'named' takes no value"),
        ("type base", "1:6: 'base' needs a value"),
        ("mention type", "1:9: 'type' needs a value"),
        ("global type=", "1:13: a number is missing"),
        ("global type=x", "1:13: 'x' is no number"),
        ("global type=-1", "1:13: '-1' is no number"),
        ("global type=0x1", "1:13: '0x1' is no number"),
        (
            "global type=4294967296",
            "1:13: '4294967296' is too large; the largest number is 4294967295",
        ),
        ("type members=0,,1", "1:16: a number is missing"),
        ("type members=0,1,", "1:18: a number is missing"),
        ("type members=0,a", "1:16: 'a' is no number"),
        ("raw types 0 0 n", "1:15: 'n' is no number"),
        ("raw members 1,2", "1:13: '1,2' is no number"),
        ("room types many", "1:12: 'many' is no number"),
        (
            "expression Literal tag=\u{e4}\u{f6}",
            "1:24: '\u{e4}\u{f6}' is no number",
        ),
        ("# \u{e4}\ntype \u{e4}=1 =", "2:6: a type has no '\u{e4}'"),
    ]);
}

#[test]
fn forms_with_other_numbers() {
    let sample = "expression ImageSample level=";
    let cases = [
        ("auto:1", "'auto' takes no number"),
        ("exact", "'exact' takes one number"),
        ("bias:1,2", "'bias' takes one number"),
        ("gradient", "'gradient' takes two numbers"),
        ("gradient:1", "'gradient' takes two numbers"),
        ("gradient:1,2,3", "'gradient' takes two numbers"),
    ];
    for (level, fault) in cases {
        faults(&[(&format!("{sample}{level}"), &format!("1:30: {fault}"))]);
    }
    faults(&[
        (
            "expression ImageSample level=exact:",
            "1:36: a number is missing",
        ),
        (
            "expression ImageSample level=gradient:1,z",
            "1:41: 'z' is no number",
        ),
        (
            "expression ImageQuery query=size:1,2",
            "1:29: 'size' takes one number or none",
        ),
        (
            "expression ImageQuery query=num_layers:1",
            "1:29: 'num_layers' takes no number",
        ),
    ]);
}

#[test]
fn spans_that_are_none() {
    let cases = [
        ("span", "11: 'span' needs a value"),
        ("span=", "16: a number is missing"),
        ("span=1", "11: 'span' takes two numbers"),
        ("span=N", "11: 'span' takes two numbers"),
        ("span=1,", "18: a number is missing"),
        ("span=,1", "16: a number is missing"),
        ("span=1,2,3", "11: 'span' takes two numbers"),
        ("span=1,2,", "20: a number is missing"),
        ("span=x,1", "16: 'x' is no number"),
        ("span=1,-1", "18: '-1' is no number"),
        ("span=1:2", "16: '1:2' is no number"),
        (
            "span=1,4294967296",
            "18: '4294967296' is too large; the largest number is 4294967295",
        ),
    ];
    for (span, fault) in cases {
        let text = format!("type leaf {span} tag=1");
        faults(&[(&text, &format!("1:{fault}"))]);
    }
    faults(&[
        ("type span=1,2", "1:1: a type needs leaf, base= or members="),
        (
            "mention type=0 span=1,2",
            "1:16: a mention has one of type=, constant=, override=, global= or expression=",
        ),
        ("mention span=1,2", "1:9: a mention has no 'span'"),
        ("room types span=1,2", "1:12: 'span=1,2' is no number"),
    ]);
}

#[test]
fn the_first_fault_counts() {
    faults(&[
        (
            "type leaf\nglobal foo bar=1 type=z\ntyp",
            "2:8: a global has no 'foo'",
        ),
        ("global type=z foo", "1:13: 'z' is no number"),
    ]);
}

#[test]
fn a_last_line_without_an_end_and_ends_of_two_characters() {
    faults(&[
        (
            "type leaf\r\ntype leaf\r\nglobal",
            "3:1: a global needs type=",
        ),
        (
            "type leaf\rtype leaf",
            "1:6: a leaf type has no 'leaf\\rtype'",
        ),
        ("type leaf\r\r\n", "1:6: a type has no 'leaf\\r'"),
        ("type leaf\u{a0}", "1:6: a type has no 'leaf\\u{a0}'"),
    ]);
}

#[test]
fn long_words_are_cut_in_messages() {
    let long = "a".repeat(100_000);
    let shown = "a".repeat(40);
    faults(&[(&long, &format!("1:1: there is no record '{shown}...'"))]);
}

#[test]
fn bytes_that_are_not_utf8() {
    let done = run_bytes(&["check", "-"], b"type leaf\n# \xc3\xa4 \xff\n");
    let expected = Done {
        status: 2,
        out: String::new(),
        err: "<stdin>:2:5: this is not UTF-8\n".into(),
    };
    assert_eq!(done, expected);
}

#[test]
fn no_command_writes_anything_for_such_a_text() {
    let commands: [&[&str]; 4] = [
        &["compact", "--maps", "-"],
        &["check", "-"],
        &["why", "-", "type:0"],
        &["graph", "-"],
    ];
    for command in commands {
        let done = run(command, "type leaf\ntype leaf tag=x");
        let err = "<stdin>:2:15: 'x' is no number\n".into();
        let expected = Done {
            status: 2,
            out: String::new(),
            err,
        };
        assert_eq!(done, expected, "{command:?}");
    }
}
