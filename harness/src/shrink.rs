//! Makes a failing module as small as greedy dropping can make it.

use crate::flat::*;
use std::time::{Duration, Instant};

/// How long the shrinking may take before it ends with what it has.
const LONGEST: Duration = Duration::from_secs(60);

/// Modules with more words than this are only tried with their handles moved along.
const FEW_WORDS: usize = 400;

struct Shrinker<F> {
    best: Flat,
    fails: F,
    end: Instant,
}

/// The smallest module found that still fails.
pub fn shrink(flat: &Flat, fails: impl FnMut(&Flat) -> bool) -> Flat {
    let mut shrinker = Shrinker {
        best: flat.clone(),
        fails,
        end: Instant::now() + LONGEST,
    };
    loop {
        let before = size(&shrinker.best);
        shrinker.drop_records();
        shrinker.simpler_words();
        shrinker.shorter_rooms();
        if size(&shrinker.best) == before || shrinker.late() {
            return shrinker.best;
        }
    }
}

/// What shrinking makes smaller.
fn size(flat: &Flat) -> (usize, u64, usize) {
    let weight = flat.areas.iter().flatten().map(|word| weight(*word));
    (flat.words(), weight.sum(), flat.rooms.iter().sum())
}

/// N and 0 are simplest.
fn weight(word: u32) -> u64 {
    match word {
        N | 0 => 0,
        _ => u64::from(word),
    }
}

impl<F: FnMut(&Flat) -> bool> Shrinker<F> {
    fn late(&self) -> bool {
        Instant::now() > self.end
    }

    /// Takes the candidate if it is smaller and still fails.
    fn attempt(&mut self, candidate: Flat) -> bool {
        let better = size(&candidate) < size(&self.best) && (self.fails)(&candidate);
        if better {
            self.best = candidate;
        }
        better
    }

    /// Drops stretches of records from every area, long stretches first.
    fn drop_records(&mut self) {
        let most = (0..8).map(|area| self.best.areas[area].len()).max();
        let mut stretch = most.unwrap_or(0).next_power_of_two();
        while stretch > 0 {
            for area in (0..8).rev() {
                self.drop_stretches(area, stretch);
            }
            stretch /= 2;
        }
    }

    fn drop_stretches(&mut self, area: usize, stretch: usize) {
        let mut place = self.best.areas[area].len().div_ceil(WIDTHS[area]);
        while place > 0 && !self.late() {
            place = place.saturating_sub(stretch);
            let gone = without(&self.best, area, place, stretch, true);
            if !self.attempt(gone) && self.best.words() <= FEW_WORDS {
                let gone = without(&self.best, area, place, stretch, false);
                self.attempt(gone);
            }
        }
    }

    /// Sets words to N, to 0, to half or to one less.
    fn simpler_words(&mut self) {
        for area in 0..8 {
            for at in 0..self.best.areas[area].len() {
                if self.late() {
                    return;
                }
                let word = self.best.areas[area][at];
                for simple in [N, 0, word / 2, word.saturating_sub(1)] {
                    if weight(simple) < weight(word) {
                        let mut next = self.best.clone();
                        next.areas[area][at] = simple;
                        if self.attempt(next) {
                            break;
                        }
                    }
                }
            }
        }
    }

    fn shorter_rooms(&mut self) {
        for area in 0..5 {
            let room = self.best.rooms[area];
            for shorter in [0, self.best.records(area), room.saturating_sub(1)] {
                if shorter < room {
                    let mut next = self.best.clone();
                    next.rooms[area] = shorter;
                    if self.attempt(next) {
                        break;
                    }
                }
            }
        }
    }
}

/// The module without some records of an area; their runs go too, and handles may move down.
fn without(flat: &Flat, area: usize, place: usize, count: usize, moved: bool) -> Flat {
    let mut next = flat.clone();
    let width = WIDTHS[area];
    let end = ((place + count) * width).min(next.areas[area].len());
    let begin = (place * width).min(end);
    if moved {
        drop_runs(&mut next, area, begin / width, end / width);
        shorten_runs(&mut next, area, begin, end);
    }
    next.areas[area].drain(begin..end);
    if area < 5 {
        let gone = (end - begin) / width;
        next.rooms[area] = next.rooms[area].saturating_sub(gone);
        if moved {
            move_down(&mut next, area, place as u32, gone as u32);
        }
    }
    next
}

/// Takes the runs of some records out of their pool; later starts move down.
fn drop_runs(flat: &mut Flat, area: usize, begin: usize, end: usize) {
    let kind = match area {
        TYPES => 3,
        EXPRESSIONS => COMPOSE,
        _ => return,
    };
    let pool = pool_of(area);
    let mut gone = 0;
    // Words to take out: runs that lie side by side go together.
    let mut stretch = 0..0;
    for place in (begin..end).rev() {
        let record = flat.record(area, place);
        let (start, count) = (record[2] as usize, record[3] as usize);
        let past = start.saturating_add(count);
        if record[0] != kind || past > flat.areas[pool].len() - stretch.len() {
            continue;
        }
        if past == stretch.start {
            stretch.start = start;
        } else {
            flat.areas[pool].drain(stretch);
            stretch = start..past;
        }
        gone += count;
    }
    flat.areas[pool].drain(stretch);
    for later in end..flat.records(area) {
        let record = flat.record_mut(area, later);
        if record[0] == kind {
            record[2] = record[2].saturating_sub(gone as u32);
        }
    }
}

/// Fits the runs of a pool to the loss of some of its words.
fn shorten_runs(flat: &mut Flat, pool: usize, begin: usize, end: usize) {
    let (area, kind) = match pool {
        MEMBERS => (TYPES, 3),
        COMPONENTS => (EXPRESSIONS, COMPOSE),
        _ => return,
    };
    // How many of the lost words lie before a place.
    let lost = |place: usize| place.clamp(begin, end) - begin;
    for place in 0..flat.records(area) {
        let record = flat.record_mut(area, place);
        if record[0] == kind {
            let (start, count) = (record[2] as usize, record[3] as usize);
            let past = start.saturating_add(count);
            record[2] -= lost(start) as u32;
            record[3] -= (lost(past) - lost(start)) as u32;
        }
    }
}

/// Handles of an area past the dropped records move down; those of dropped ones fall on the first.
fn move_down(flat: &mut Flat, area: usize, place: u32, gone: u32) {
    let new = |handle: u32| match handle {
        N => N,
        _ if handle < place => handle,
        _ if handle < place.saturating_add(gone) => place.saturating_sub(1),
        _ => handle - gone,
    };
    for of in 0..5 {
        for at in 0..flat.records(of) {
            let slots = slots(of, flat.record(of, at));
            for (number, slot) in slots.iter().enumerate() {
                if let Slot::Need(to) | Slot::May(to) = *slot {
                    if to == area {
                        let word = &mut flat.record_mut(of, at)[FIRST_SLOT[of] + number];
                        *word = new(*word);
                    }
                }
            }
        }
    }
    if let TYPES | EXPRESSIONS = area {
        for word in &mut flat.areas[pool_of(area)] {
            *word = new(*word);
        }
    }
    for mention in flat.each_mut(MENTIONS) {
        if mention[0] as usize == area {
            mention[1] = new(mention[1]);
        }
    }
}
