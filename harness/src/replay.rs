//! Replays recorded cases against the library alone.

use crate::library::Library;
use crate::text::{parse, replayed};
use std::path::{Path, PathBuf};

/// Replays one file, which has a case at least. Gives how many it has, and the first line that differs.
pub fn replay(library: &dyn Library, file: &Path) -> Result<(usize, Option<String>), String> {
    let read = |path: &Path| {
        std::fs::read_to_string(path).map_err(|why| format!("{}: {why}", path.display()))
    };
    let input = read(file)?;
    let wanted = read(&file.with_extension("stdout"))?;
    let cases = parse(&input).map_err(|why| format!("{}: {why}", file.display()))?;
    if cases.is_empty() {
        return Err(format!("{}: no cases", file.display()));
    }
    let mut got = String::new();
    for case in &cases {
        got.push_str(&replayed(library, case));
    }
    Ok((cases.len(), first_difference(&got, &wanted)))
}

/// The first line in which two texts differ.
fn first_difference(got: &str, wanted: &str) -> Option<String> {
    if got == wanted {
        return None;
    }
    let (mut got, mut wanted) = (got.lines(), wanted.lines());
    for line in 1.. {
        match (got.next(), wanted.next()) {
            (None, None) => break,
            (one, other) if one == other => {}
            (one, other) => {
                let text = |line: Option<&str>| line.unwrap_or("the end").to_string();
                return Some(format!(
                    "line {line} is {} and not {}",
                    text(one),
                    text(other)
                ));
            }
        }
    }
    Some(String::from("the line ends differ"))
}

/// Where the recorded answers stand: beside the program that reads them.
pub const RECORDED: &str = concat!(env!("HARNESS"), "/../crates/cases/answers");

/// The recorded files.
pub fn recorded_files() -> Result<Vec<PathBuf>, String> {
    files_in(Path::new(RECORDED))
}

/// The cases in a folder that holds some, and what each file of them must give.
pub fn files_in(folder: &Path) -> Result<Vec<PathBuf>, String> {
    let wrong = |why: &str| format!("{}: {why}", folder.display());
    let entries = std::fs::read_dir(folder).map_err(|why| wrong(&why.to_string()))?;
    let paths: Vec<PathBuf> = entries.flatten().map(|entry| entry.path()).collect();
    let ending = |end: &str| {
        let with = |path: &&PathBuf| path.extension().is_some_and(|given| given == end);
        let mut files: Vec<PathBuf> = paths.iter().filter(with).cloned().collect();
        files.sort();
        files
    };
    let (files, answers) = (ending("stdin"), ending("stdout"));
    if files.is_empty() {
        return Err(wrong("no recorded answers"));
    }
    if files
        .iter()
        .map(|file| file.with_extension("stdout"))
        .ne(answers)
    {
        return Err(wrong(
            "a .stdin without its .stdout, or the other way round",
        ));
    }
    Ok(files)
}
