//! docs/FORMAT.md says what the reader does: its tables and its example are held to it.
#![forbid(unsafe_code)]

use cadnohal::{Area, Span, N};
use cadnohal_cli::format::{read, Text};
use std::{fs, path::PathBuf};

fn paper() -> String {
    let path = PathBuf::from(env!("CARGO_MANIFEST_DIR")).join("../../docs/FORMAT.md");
    fs::read_to_string(path).expect("the paper is there")
}

fn text(line: &str) -> Text {
    read(line.as_bytes()).unwrap_or_else(|fault| panic!("{line}: {fault:?}"))
}

/// The columns of the rows of all tables, without backquotes.
fn rows(paper: &str) -> Vec<Vec<String>> {
    let rows = paper.lines().filter(|line| line.starts_with("| "));
    let columns = |line: &str| {
        let line = line.replace('`', "");
        let columns = line.trim_matches('|').split('|');
        columns.map(|column| column.trim().to_string()).collect()
    };
    rows.map(columns).collect()
}

/// A key of the table with a value that it takes.
fn with_value(kind: &str, key: &str) -> String {
    match (kind, key) {
        ("ImageSample", "level=") => "level=auto".into(),
        ("ImageQuery", "query=") => "query=size".into(),
        _ => format!("{key}0"),
    }
}

#[test]
fn the_table_of_kinds() {
    let rows = rows(&paper());
    let kinds = rows
        .iter()
        .filter(|row| row.len() == 3 && row[0].parse::<u32>().is_ok());
    let kinds: Vec<_> = kinds.collect();
    assert_eq!(kinds.len(), 34);
    for (number, row) in kinds.into_iter().enumerate() {
        let (kind, keys) = (row[1].as_str(), row[2].split_whitespace());
        let (optional, needed): (Vec<&str>, Vec<&str>) = keys.partition(|key| key.starts_with('['));
        let value = |key: &&str| with_value(kind, key.trim_matches(['[', ']']));
        let needed: Vec<String> = needed.iter().map(value).collect();
        let optional: Vec<String> = optional.iter().map(value).collect();
        let short = text(&format!("expression {kind} {}", needed.join(" ")))
            .module
            .expressions;
        assert_eq!(short[0] as usize, number, "{kind}");
        let full = format!(
            "expression {kind} {} {}",
            needed.join(" "),
            optional.join(" ")
        );
        let full = text(&full).module.expressions;
        let changed = short
            .iter()
            .zip(&full)
            .filter(|(short, full)| short != full);
        let changed: Vec<_> = changed.collect();
        assert!(changed.iter().all(|&pair| pair == (&N, &0)), "{kind}");
        assert_eq!(changed.len(), optional.len(), "{kind}");
        for left_out in 0..needed.len() {
            let mut fewer = needed.clone();
            fewer.remove(left_out);
            let line = format!("expression {kind} {}", fewer.join(" "));
            assert!(read(line.as_bytes()).is_err(), "{line}");
        }
    }
}

#[test]
fn the_tables_of_forms() {
    let rows = rows(&paper());
    let forms = rows
        .iter()
        .filter(|row| row.len() == 2 && row[1].parse::<u32>().is_ok());
    let mut seen = 0;
    for row in forms {
        for form in row[0].split(" or ") {
            let form = form
                .replace(":x,y", ":1,2")
                .replace(":x", ":1")
                .replace(":level", ":1");
            let sample =
                format!("expression ImageSample image=0 sampler=0 coordinate=0 level={form}");
            let query = format!("expression ImageQuery image=0 query={form}");
            let found = match read(sample.as_bytes()) {
                Ok(sample) => sample.module.expressions[6],
                Err(_) => text(&query).module.expressions[2],
            };
            assert_eq!(found.to_string(), row[1], "{form}");
            seen += 1;
        }
    }
    assert_eq!(seen, 10);
}

#[test]
fn the_lines_of_the_table_of_records() {
    let rows = rows(&paper());
    let records = rows.iter().filter(|row| row.len() == 4 && row[0] != "Line");
    let lines: Vec<&str> = records.map(|row| row[0].as_str()).collect();
    assert_eq!(lines.len(), 9);
    let module = text(&lines.join("\n")).module;
    let types = module.types.chunks(Area::Types.width());
    let kinds: Vec<u32> = types.map(|words| words[0]).collect();
    assert_eq!(kinds, [0, 1, 2, 3]);
    assert_eq!(module.constants, [0, 0, 3, 0, 0, 0]);
    assert_eq!(module.overrides, [0, 0, N, 0, 0, 0]);
    assert_eq!(module.globals, [0, N, 0, 0, 0]);
    assert_eq!(module.expressions[..2], [14, 0]);
    assert_eq!(module.mentions, [0, 0]);
}

#[test]
fn the_example() {
    let paper = paper();
    let example = paper
        .split("## Example\n")
        .nth(1)
        .expect("there is an example");
    let lines = example.lines().filter_map(|line| line.strip_prefix("    "));
    let lines: Vec<&str> = lines.collect();
    assert_eq!(lines.len(), 11);
    let module = text(&lines.join("\n")).module;
    assert_eq!(module.check(), Ok(()));
    assert_eq!(module.members, [0, 1, 1]);
    assert_eq!(module.components, [0, 1, 1]);
    let sample = [15, 0, 0, 1, N, N, 4, 1, 1, N, 0, 0, 0];
    assert_eq!(module.record(Area::Expressions, 3), Some(&sample[..]));
    let compose = Span {
        start: 412,
        length: 9,
    };
    assert_eq!(module.span(Area::Expressions, 2), Some(compose));
}

#[test]
fn the_messages() {
    let cases = [
        ("expression Lod", "there is no expression kind 'Lod'"),
        ("expression Load base=0", "Load has no 'base'"),
        ("type leaf tag=1 tag=1", "'tag' is given twice"),
        ("type base", "'base' needs a value"),
        (
            "expression Select accept=0",
            "Select needs condition=, reject=",
        ),
        ("global type=x", "'x' is no number"),
        (
            "global type=4294967296",
            "'4294967296' is too large; the largest number is 4294967295",
        ),
        (
            "expression ImageSample level=gradient:1",
            "'gradient' takes two numbers",
        ),
        ("type leaf span=1", "'span' takes two numbers"),
    ];
    let paper = paper();
    for (line, message) in cases {
        assert_eq!(read(line.as_bytes()).unwrap_err().message, message);
        assert!(paper.contains(&format!("| `{message}` |")), "{message}");
    }
    assert!(paper.contains("| `this is not UTF-8` |"));
    assert_eq!(read(b"\xff").unwrap_err().message, "this is not UTF-8");
}
