//! Where modules come from.

pub mod damaged;
pub mod good;
pub mod large;
pub mod small;
pub mod whole;
pub mod wild;

use crate::flat::{Flat, Refusal, Tail, BODIES, LENGTH, N, START};
use crate::rng::Rng;

/// What a generator knows of its module's verdict.
#[derive(Clone, Copy, Debug, PartialEq, Eq)]
pub enum Foretold {
    Nothing,
    Accepted,
    Refused(Refusal),
}

/// Gives each map its arena's length, mostly; sometimes more.
pub fn set_rooms(flat: &mut Flat, rng: &mut Rng) {
    flat.fit_rooms();
    for room in &mut flat.rooms {
        if rng.one_in(3) {
            *room += rng.below(6);
        }
    }
}

/// A tail with any word as its tag. Its span is given by `spread`.
pub fn tail(rng: &mut Rng) -> Tail {
    let tag = match rng.below(8) {
        0 => N,
        1 => 0,
        2 | 3 => rng.word(),
        _ => rng.below32(100),
    };
    [0, 0, tag]
}

/// Gives each record of the arenas a span, by a source of its own, so that nothing else in a module hangs on it.
/// No record has that of the one before it.
pub fn spread(mut flat: Flat, seed: u64) -> Flat {
    let mut rng = Rng::part(seed, 9);
    let mut last = [0, 0];
    for (area, body) in BODIES.into_iter().enumerate() {
        for record in flat.each_mut(area) {
            let other = span(&mut rng, last);
            last = if other == last {
                other.map(|word| !word)
            } else {
                other
            };
            record[body + START] = last[0];
            record[body + LENGTH] = last[1];
        }
    }
    flat
}

/// Start and length: any words, often 0 or N, or made of those of the record before.
fn span(rng: &mut Rng, [start, length]: [u32; 2]) -> [u32; 2] {
    let any = rng.next();
    let (one, two) = (any as u32, (any >> 32) as u32);
    match rng.below(16) {
        0 => [0, 0],
        1 => [N, N],
        2 => [0, two],
        3 => [one, 0],
        4 => [N, two],
        5 => [one, N],
        6 => [length, start],
        7 => [start, two % 100],
        8 | 9 => [start.wrapping_add(length), two % 100],
        10 => [start.wrapping_add(1), length.wrapping_add(1)],
        11..=13 => [one % 1000, two % 100],
        _ => [one, two],
    }
}
