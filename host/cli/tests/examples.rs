//! The modules in the folder of examples.
#![forbid(unsafe_code)]

mod common;

use cadnohal::Span;
use cadnohal_cli::{
    format::{read, singular},
    references::elements,
};
use common::{example, run, Done};
use std::fs;

/// The paths of the texts in a folder.
fn texts(folder: &str) -> Vec<String> {
    let entries = fs::read_dir(example(folder)).expect("the folder is there");
    let paths = entries.map(|entry| entry.expect("it can be listed").path());
    let texts = paths.filter(|path| path.extension().is_some_and(|end| end == "txt"));
    let mut texts: Vec<String> = texts
        .map(|path| path.to_str().expect("the path is UTF-8").into())
        .collect();
    texts.sort();
    texts
}

#[test]
fn all_are_accepted() {
    let texts = texts("");
    assert_eq!(texts.len(), 2);
    for path in texts {
        assert_eq!(run(&["check", &path], "").out, "accepted\n", "{path}");
        for options in [
            &["compact", "--maps"][..],
            &["compact", "--maps", "--keep-unused"],
            &["graph"],
        ] {
            let Done { status, err, .. } = run(&[options, &[&path]].concat(), "");
            assert_eq!((status, err.as_str()), (0, ""), "{path}");
        }
    }
}

#[test]
fn the_refused_ones_are_refused() {
    let texts = texts("refused");
    let places = [
        "early.txt:16: refusal 7 at expressions, record 0, span 91,6: ",
        "kind.txt:5: refusal 4 at expressions, record 1, span 64,9: ",
        "order.txt:4: refusal 7 at types, record 0: ",
    ];
    assert_eq!(texts.len(), places.len());
    for (path, place) in texts.iter().zip(places) {
        let Done { status, out, err } = run(&["check", path], "");
        assert_eq!((status, out.as_str()), (1, ""), "{path}");
        assert!(err.contains(place), "{err}");
    }
}

/// What a span covers of a text.
fn covered(text: &str, span: Span) -> Option<&str> {
    text.get(span.start as usize..)?.get(..span.length as usize)
}

#[test]
fn a_refusal_points_into_the_generators_text() {
    let path = example("refused/early.txt");
    let text = fs::read_to_string(path).expect("the example is there");
    let quoted = text.lines().filter_map(|line| line.strip_prefix("#   |"));
    let generated = quoted.collect::<Vec<_>>().join("\n");
    let module = read(text.as_bytes()).expect("it can be read").module;
    let refusal = module.check().expect_err("it is refused");
    let refused = refusal.span().and_then(|span| covered(&generated, span));
    assert_eq!(refused, Some("Gain()"));
    // A comment behind each record quotes what its span covers.
    for element in elements(&module) {
        let (area, index) = (element.area(), element.index());
        let records = text.lines().filter(|line| line.starts_with(singular(area)));
        let line = records.into_iter().nth(index as usize).expect("a line");
        let comment = line.split_once(&format!("# {index}  "));
        let span = module.span(area, index).expect("a span");
        assert_eq!(covered(&generated, span), comment.map(|(_, quoted)| quoted));
    }
}

/// The maps that a pass writes.
fn maps(name: &str, options: &[&str]) -> Vec<String> {
    let path = example(name);
    let arguments = [&["compact", "--maps", path.to_str().unwrap()], options].concat();
    let out = run(&arguments, "").out;
    out.lines()
        .filter_map(|line| line.strip_prefix("# map "))
        .map(String::from)
        .collect()
}

#[test]
fn the_beamformer_in_both_modes() {
    let no = [
        "types 0 1 N N 2 3 4 5 6 7 8 9 10",
        "constants 0 N 1 2 3 4",
        "overrides 0 N 1 2",
        "globals 0 1 N 2 3 4 5 6",
        "expressions 0 1 2 3 4 N 5 6 7 N N 8 9 10 11 12 13 N 14 15 16",
    ];
    assert_eq!(maps("beamformer.txt", &[]), no);
    let yes = [
        "types 0 1 2 N 3 4 5 6 7 8 9 10 11",
        "constants 0 N 1 2 3 4",
        "overrides 0 1 2 3",
        "globals 0 1 2 3 4 5 6 7",
        "expressions 0 1 2 3 4 N 5 6 7 N 8 9 10 11 12 13 14 15 16 17 18",
    ];
    assert_eq!(maps("beamformer.txt", &["--keep-unused"]), yes);
}

#[test]
fn case_3() {
    let yes = [
        "types 0 1 2 3 4 N",
        "constants",
        "overrides 0 1 2 N",
        "globals",
        "expressions 0 1 2 3 N",
    ];
    assert_eq!(maps("interdependence.txt", &["--keep-unused"]), yes);
    let no = [
        "types N N N N N N",
        "constants",
        "overrides N N N N",
        "globals",
        "expressions N N N N N",
    ];
    assert_eq!(maps("interdependence.txt", &[]), no);
}
