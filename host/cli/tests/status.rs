//! Exit statuses, usage, help, version, files and pipes.
#![forbid(unsafe_code)]

mod common;

use common::{example, program, run, Done};
use std::{
    fs,
    io::{Read, Write},
    process::Stdio,
};

fn done(status: i32, out: &str, err: &str) -> Done {
    Done {
        status,
        out: out.into(),
        err: err.into(),
    }
}

/// Arguments that are bad usage, and what standard error says after the program's name.
const BAD_USAGE: [(&[&str], &str); 17] = [
    (&[], "a command is missing; see cadnohal --help"),
    (
        &["squeeze"],
        "there is no command 'squeeze'; see cadnohal --help",
    ),
    (
        &["--keep-unused"],
        "there is no command '--keep-unused'; see cadnohal --help",
    ),
    (
        &["compact"],
        "compact needs FILE; see cadnohal compact --help",
    ),
    (
        &["check", "--"],
        "check needs FILE; see cadnohal check --help",
    ),
    (
        &["why", "--keep-unused"],
        "why needs FILE; see cadnohal why --help",
    ),
    (&["why", "-"], "why needs ELEMENT; see cadnohal why --help"),
    (&["graph"], "graph needs FILE; see cadnohal graph --help"),
    (
        &["compact", "-", "b"],
        "'b' is too many; see cadnohal compact --help",
    ),
    (
        &["why", "-", "type:0", "c"],
        "'c' is too many; see cadnohal why --help",
    ),
    (
        &["compact", "--map", "-"],
        "compact has no option '--map'; see cadnohal compact --help",
    ),
    (
        &["check", "--keep-unused", "-"],
        "check has no option '--keep-unused'; see cadnohal check --help",
    ),
    (
        &["graph", "--maps", "-"],
        "graph has no option '--maps'; see cadnohal graph --help",
    ),
    (
        &["why", "-", "type"],
        "'type' is no element; see cadnohal why --help",
    ),
    (
        &["why", "-", "mention:0"],
        "'mention:0' is no element; see cadnohal why --help",
    ),
    (
        &["why", "-", "type:+1"],
        "'type:+1' is no element; see cadnohal why --help",
    ),
    (
        &["why", "-", "type:4294967296"],
        "'type:4294967296' is no element; see cadnohal why --help",
    ),
];

#[test]
fn bad_usage_is_2() {
    for (arguments, err) in BAD_USAGE {
        let expected = done(2, "", &format!("cadnohal: {err}\n"));
        assert_eq!(run(arguments, "type leaf"), expected, "{arguments:?}");
    }
}

#[test]
fn an_element_that_is_not_there_is_2() {
    let cases = [
        ("type:2", "type:2 is not in the module, which has 2 types"),
        (
            "constant:0",
            "constant:0 is not in the module, which has 0 constants",
        ),
        (
            "expression:1",
            "expression:1 is not in the module, which has 1 expression",
        ),
        (
            "global:4294967295",
            "global:4294967295 is not in the module, which has 0 globals",
        ),
    ];
    for (element, err) in cases {
        let text = "type leaf\ntype leaf\nexpression Literal";
        let expected = done(2, "", &format!("cadnohal: {err}\n"));
        assert_eq!(run(&["why", "-", element], text), expected);
    }
}

#[test]
fn files_that_cannot_be_read_are_2() {
    let missing = run(&["compact", "no/such/file"], "");
    assert_eq!((missing.status, missing.out.as_str()), (2, ""));
    assert!(
        missing
            .err
            .starts_with("cadnohal: can't read 'no/such/file': "),
        "{}",
        missing.err
    );
    let folder = run(&["check", env!("CARGO_MANIFEST_DIR")], "");
    assert_eq!((folder.status, folder.out.as_str()), (2, ""));
    assert!(
        folder.err.starts_with("cadnohal: can't read '"),
        "{}",
        folder.err
    );
}

#[test]
fn a_fault_in_a_file_names_the_file() {
    let name = format!("cadnohal-{}.txt", std::process::id());
    let path = std::env::temp_dir().join(name);
    fs::write(&path, "type leaf\ntype leaf\n  expression Lod\n").expect("the file can be written");
    let path_text = path.to_str().expect("the path is UTF-8");
    let found = run(&["check", path_text], "");
    fs::remove_file(&path).expect("the file can be removed");
    let err = format!("{path_text}:3:14: there is no expression kind 'Lod'\n");
    assert_eq!(found, done(2, "", &err));
}

#[test]
fn help_and_version() {
    for (arguments, begins) in [
        (
            &["--help"][..],
            "cadnohal compacts flat shader modules.\n\nusage: cadnohal compact ",
        ),
        (&["-h"], "cadnohal compacts flat shader modules.\n"),
        (
            &["compact", "--help"],
            "usage: cadnohal compact [--keep-unused] [--maps] FILE|-\n",
        ),
        (&["check", "--help"], "usage: cadnohal check FILE|-\n"),
        (
            &["why", "-", "--help"],
            "usage: cadnohal why [--keep-unused] FILE|- ELEMENT\n",
        ),
        (
            &["graph", "-h"],
            "usage: cadnohal graph [--keep-unused] FILE|-\n",
        ),
    ] {
        let Done { status, out, err } = run(arguments, "");
        assert_eq!((status, err.as_str()), (0, ""), "{arguments:?}");
        assert!(out.starts_with(begins), "{arguments:?}\n{out}");
        assert!(out.lines().all(|line| line.len() <= 80), "{out}");
    }
    let version = format!(
        "cadnohal {}, ABI {}\n",
        env!("CARGO_PKG_VERSION"),
        cadnohal::ABI
    );
    assert_eq!(run(&["--version"], ""), done(0, &version, ""));
    assert_eq!(run(&["-V"], ""), done(0, &version, ""));
}

#[test]
fn options_may_stand_anywhere_before_two_dashes() {
    let text = "type leaf named";
    let kept = done(0, "type leaf named  # type 0\n", "");
    assert_eq!(run(&["compact", "-", "--keep-unused"], text), kept);
    assert_eq!(run(&["compact", "--keep-unused", "--", "-"], text), kept);
    assert_eq!(run(&["compact", "-"], text), done(0, "", ""));
    let file = run(&["compact", "--", "--keep-unused"], text);
    assert!(
        file.err
            .starts_with("cadnohal: can't read '--keep-unused': "),
        "{}",
        file.err
    );
}

/// A text whose compacted module is far larger than a pipe's buffer.
fn long_text() -> String {
    "type leaf named tag=1234567890\n".repeat(4096)
}

#[test]
fn a_closed_pipe_is_no_failure() {
    for command in [&["compact", "--keep-unused", "-"][..], &["graph", "-"]] {
        let mut child = program()
            .args(command)
            .stdin(Stdio::piped())
            .stdout(Stdio::piped())
            .stderr(Stdio::piped())
            .spawn()
            .expect("the program starts");
        drop(child.stdout.take());
        let mut stdin = child.stdin.take().expect("standard input is a pipe");
        stdin.write_all(long_text().as_bytes()).expect("it is read");
        drop(stdin);
        let mut err = String::new();
        let mut stderr = child.stderr.take().expect("standard error is a pipe");
        stderr.read_to_string(&mut err).expect("it is UTF-8");
        let status = child.wait().expect("the program ends");
        assert_eq!((status.code(), err.as_str()), (Some(0), ""), "{command:?}");
    }
}

#[test]
fn a_closed_standard_error_changes_no_status() {
    let mut child = program()
        .args(["check", "-"])
        .stdin(Stdio::piped())
        .stdout(Stdio::null())
        .stderr(Stdio::piped())
        .spawn()
        .expect("the program starts");
    drop(child.stderr.take());
    let mut stdin = child.stdin.take().expect("standard input is a pipe");
    stdin.write_all(b"type base=0").expect("it is read");
    drop(stdin);
    assert_eq!(child.wait().expect("the program ends").code(), Some(1));
}

#[cfg(target_os = "linux")]
#[test]
fn a_full_disk_is_2() {
    let full = fs::OpenOptions::new().write(true).open("/dev/full");
    let output = program()
        .args(["compact", "--keep-unused"])
        .arg(example("beamformer.txt"))
        .stdout(full.expect("the device opens"))
        .stderr(Stdio::piped())
        .output()
        .expect("the program runs");
    let err = String::from_utf8(output.stderr).expect("standard error is UTF-8");
    assert_eq!(output.status.code(), Some(2), "{err}");
    assert!(
        err.starts_with("cadnohal: can't write to standard output: "),
        "{err}"
    );
}

#[cfg(unix)]
#[test]
fn an_argument_that_is_not_utf8() {
    use std::{ffi::OsStr, os::unix::ffi::OsStrExt};
    let output = program()
        .args(["why", "-"])
        .arg(OsStr::from_bytes(b"type:\xff"))
        .stdin(Stdio::null())
        .output()
        .expect("the program runs");
    let err = String::from_utf8(output.stderr).expect("standard error is UTF-8");
    assert_eq!(output.status.code(), Some(2));
    assert_eq!(
        err,
        "cadnohal: 'type:\u{fffd}' is no element; see cadnohal why --help\n"
    );
}
