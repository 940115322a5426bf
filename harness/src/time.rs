//! Times the published compactor on one module.

use crate::convert;
use crate::expect::expect_check;
use crate::flat::{Flat, AREAS, N};
use crate::rng::Rng;
use crate::roads;
use naga::compact::{compact, KeepUnused};
use std::hint::black_box;
use std::time::Instant;

/// The module of a text of lines `raw AREA words`, with maps as long as its arenas.
pub fn read(text: &str) -> Result<Flat, String> {
    let mut flat = Flat::default();
    for (number, line) in text.lines().enumerate() {
        let line = line.split('#').next().unwrap_or_default();
        let mut words = line.split_whitespace();
        let Some(first) = words.next() else {
            continue;
        };
        let wrong = |what: &str| format!("line {}: {what}", number + 1);
        let name = words.next().unwrap_or_default();
        let area = AREAS.iter().position(|area| *area == name);
        let (true, Some(area)) = (first == "raw", area) else {
            return Err(wrong("not raw AREA words"));
        };
        for word in words {
            let word = if word == "N" { Ok(N) } else { word.parse() };
            flat.areas[area].push(word.map_err(|_| wrong("no number"))?);
        }
    }
    flat.fit_rooms();
    Ok(flat)
}

/// Nanoseconds of one pass: the median and the two quartiles. Building the Rust's module is not counted.
pub fn time(flat: &Flat, keep: bool, turns: usize) -> Result<[u128; 3], String> {
    if let Some(refusal) = expect_check(flat) {
        return Err(format!("refused with {}", refusal.number));
    }
    let mode = || {
        if keep {
            KeepUnused::Yes
        } else {
            KeepUnused::No
        }
    };
    let roads = roads::choose(flat, &mut Rng::new(1));
    let mut turns: Vec<u128> = (0..turns.max(1))
        .map(|_| {
            let mut built = convert::build(flat, keep, &roads, &mut Rng::new(1));
            let begin = Instant::now();
            compact(black_box(&mut built.module), mode());
            let spent = begin.elapsed().as_nanos();
            black_box(&built.module);
            spent
        })
        .collect();
    turns.sort_unstable();
    let at = |part: usize| turns[(turns.len() - 1) * part / 4];
    Ok([at(2), at(1), at(3)])
}
