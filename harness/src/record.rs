//! Writes what the published Rust answers to the recorded modules.

use crate::cases::{all, Wanted};
use crate::compare::told;
use crate::convert;
use crate::expect::expect_check;
use crate::flat::*;
use crate::rng::Rng;
use crate::roads::{self, Road};
use crate::rust::{run, Outcome};
use crate::text::{answered, written, Case, BEFORE};
use std::path::Path;

/// A file has fewer bytes than this.
const MOST_BYTES: usize = 8000;

/// Writes `answers-1.stdin`, `answers-1.stdout` and so on into a folder. Gives how many cases and files.
pub fn record(seed: u64, folder: &Path) -> Result<(usize, usize), String> {
    let (mut input, mut output) = (String::new(), String::new());
    let (mut cases, mut files) = (0, 0);
    std::fs::create_dir_all(folder).map_err(|why| format!("{}: {why}", folder.display()))?;
    for wanted in all(seed) {
        cases += 1;
        let (asked, answer) = one(cases, &wanted, &mut Rng::part(seed, u64::from(cases)))?;
        if input.len() + asked.len() > MOST_BYTES {
            files += 1;
            put(folder, files, &input, &output)?;
            input.clear();
            output.clear();
        }
        input.push_str(&asked);
        output.push_str(&answer);
    }
    files += 1;
    put(folder, files, &input, &output)?;
    Ok((cases as usize, files))
}

fn put(folder: &Path, number: usize, input: &str, output: &str) -> Result<(), String> {
    for (end, text) in [("stdin", input), ("stdout", output)] {
        let file = folder.join(format!("answers-{number}.{end}"));
        std::fs::write(&file, text).map_err(|why| format!("{}: {why}", file.display()))?;
    }
    Ok(())
}

/// One case: what is asked, and what is answered.
fn one(number: u32, wanted: &Wanted, rng: &mut Rng) -> Result<(String, String), String> {
    let mut flat = wanted.flat.clone();
    if number.is_multiple_of(5) {
        for room in &mut flat.rooms {
            *room += 1;
        }
    }
    let case = Case {
        number,
        keep: wanted.keep,
        show: true,
        flat,
    };
    if !case.fits() {
        return Err(format!("case {number}: more than `cases` has room for"));
    }
    let (rust, answer) = match expect_check(&case.flat) {
        None => accepted(&case, wanted.roads.clone(), rng)?,
        Some(refusal) => refused(&case, refusal, rng),
    };
    let asked = format!("# {number}: {}\n# {rust}\n{}", wanted.what, written(&case));
    Ok((asked, answer))
}

/// What the published Rust answers to an accepted module.
pub fn accepted(
    case: &Case,
    roads: Option<Vec<Road>>,
    rng: &mut Rng,
) -> Result<(String, String), String> {
    let chosen = roads.unwrap_or_else(|| roads::choose(&case.flat, rng));
    let (after, _) = match run(&case.flat, case.keep, &chosen, rng.next()) {
        Outcome::Through(after, ranges) => (after, ranges),
        Outcome::Panicked(why) | Outcome::Garbled(why) => {
            return Err(format!("case {}: {why}", case.number));
        }
        Outcome::Endless => return Err(format!("case {}: would not come back", case.number)),
    };
    let answer = Answer {
        counts: after.counts,
        ..Answer::default()
    };
    let areas = after.areas.each_ref().map(Vec::as_slice);
    let mut maps = after.maps.clone();
    for (map, room) in maps.iter_mut().zip(case.flat.rooms) {
        map.resize(room, BEFORE);
    }
    let maps = maps.each_ref().map(Vec::as_slice);
    let names: Vec<&str> = chosen.iter().map(|road| road.name()).collect();
    let rust = match names.len() {
        0 => String::from("the Rust answers this"),
        _ => format!("the Rust answers this, by {}", names.join(" and ")),
    };
    Ok((rust, answered(case, &answer, &areas, &maps)))
}

/// The refusal of document 01, and what the published Rust does instead.
fn refused(case: &Case, refusal: Refusal, rng: &mut Rng) -> (String, String) {
    let rust = if refusal.number >= 5 && convert::holdable(&case.flat) {
        let chosen = roads::choose(&case.flat, rng);
        let outcome = run(&case.flat, case.keep, &chosen, rng.next());
        format!(
            "the Rust {}",
            told(&case.flat, refusal, case.keep, &outcome)
        )
    } else {
        String::from("the Rust has no such module")
    };
    let areas = case.flat.areas.each_ref().map(Vec::as_slice);
    let maps = case.flat.rooms.map(|room| vec![BEFORE; room]);
    let maps = maps.each_ref().map(Vec::as_slice);
    (rust, answered(case, &refusal.answer(), &areas, &maps))
}
