//! Wild words: any lengths, any words, any map lengths; and good modules with some words overwritten.

use super::good::{good, Size, LEAST_LARGE};
use crate::flat::*;
use crate::rng::Rng;

pub fn wild(rng: &mut Rng) -> Flat {
    match rng.below(4) {
        0 => any_words(rng),
        1 => plausible(rng),
        _ => overwritten(rng),
    }
}

/// Any words in areas of any length.
fn any_words(rng: &mut Rng) -> Flat {
    let mut flat = Flat::default();
    for area in 0..8 {
        let mut length = rng.below(5 * WIDTHS[area] + 1);
        if rng.one_in(400) {
            length += rng.sized(LEAST_LARGE, 2 * LIMITS[area]) * WIDTHS[area];
        }
        if rng.one_in(2) {
            length -= length % WIDTHS[area];
        }
        flat.areas[area] = (0..length).map(|_| any_word(rng)).collect();
    }
    for area in 0..5 {
        flat.rooms[area] = match rng.below(4) {
            0 => rng.below(8),
            _ => flat.records(area) + rng.below(3),
        };
    }
    flat
}

/// A word of any sort.
fn any_word(rng: &mut Rng) -> u32 {
    match rng.below(8) {
        0 | 1 => N,
        2 => rng.word(),
        3 => rng.below32(40),
        4 => *rng.pick(&[N - 1, 1 << 31, 1 << 16, 4096, 33, 34]),
        _ => rng.below32(4),
    }
}

/// Whole records with good kinds and flags over handles that are mostly in range.
fn plausible(rng: &mut Rng) -> Flat {
    let mut flat = Flat::default();
    let counts: [usize; 5] = std::array::from_fn(|_| rng.below(4));
    let word = |to: usize, rng: &mut Rng| match rng.below(12) {
        0 => any_word(rng),
        _ if counts[to] == 0 => N,
        _ => rng.below32(counts[to]),
    };
    for (area, count) in counts.iter().enumerate() {
        for _ in 0..*count {
            let record = plausible_record(&mut flat, area, rng, &word);
            flat.push(area, &record);
        }
    }
    for _ in 0..rng.below(3) {
        let area = rng.below(5);
        let handle = word(area, rng);
        flat.push(MENTIONS, &[area as u32, handle]);
    }
    flat.fit_rooms();
    flat
}

fn plausible_record(
    flat: &mut Flat,
    area: usize,
    rng: &mut Rng,
    word: &impl Fn(usize, &mut Rng) -> u32,
) -> Vec<u32> {
    let mut record = vec![N; WIDTHS[area]];
    match area {
        TYPES => {
            record[0] = rng.below32(TYPE_KINDS as usize);
            record[1] = rng.below32(4);
        }
        EXPRESSIONS => {
            record[0] = rng.below32(EXPRESSION_KINDS as usize);
            match record[0] {
                IMAGE_SAMPLE => record[1 + LEVEL_FORM] = rng.below32(5),
                IMAGE_QUERY => record[1 + QUERY_FORM] = rng.below32(4),
                _ => {}
            }
        }
        CONSTANTS | OVERRIDES => record[0] = rng.below32(2),
        _ => {}
    }
    let first = FIRST_SLOT[area];
    for (number, slot) in slots(area, &record).iter().enumerate() {
        match *slot {
            Slot::Need(to) => record[first + number] = word(to, rng),
            Slot::May(to) if rng.one_in(2) => record[first + number] = word(to, rng),
            Slot::Start => {
                let pool = pool_of(area);
                let count = rng.below(3);
                record[first + number] = flat.areas[pool].len() as u32;
                record[first + number + 1] = count as u32;
                for _ in 0..count {
                    let item = word(area, rng);
                    flat.areas[pool].push(item);
                }
            }
            _ => {}
        }
    }
    record
}

/// A good module with some words overwritten, some areas cut or lengthened, some maps too.
fn overwritten(rng: &mut Rng) -> Flat {
    let mut flat = good(rng, Size::Tiny);
    for _ in 0..rng.between(1, 3) {
        let area = rng.below(8);
        let length = flat.areas[area].len();
        match rng.below(10) {
            0 => flat.areas[area].truncate(rng.below(length + 1)),
            1 => {
                let word = any_word(rng);
                flat.areas[area].push(word);
            }
            2 => {
                let arena = rng.below(5);
                flat.rooms[arena] = rng.below(flat.rooms[arena] + 2);
            }
            _ if length > 0 => flat.areas[area][rng.below(length)] = any_word(rng),
            _ => {}
        }
    }
    flat
}
