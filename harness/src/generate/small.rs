//! All modules up to a tiny size over a reduced alphabet of kinds, slots and flags.
//!
//! There are two families: in one a type or expression names older ones only, in the other any. Modules
//! are counted shape by shape, shapes with few modules first. A shape's modules are taken in a scattered
//! order, so that a run that stops within a large shape has seen a spread of it.

use crate::flat::*;
use std::cell::RefCell;
use std::rc::Rc;
use std::sync::OnceLock;

/// How many records of areas 0 to 4, how many mentions, and whether types and expressions name only
/// older ones.
#[derive(Clone, Copy, Debug, PartialEq, Eq, PartialOrd, Ord)]
struct Shape {
    counts: [usize; 6],
    older: bool,
}

/// Shapes with more modules than this are left out.
const MOST_OLDER: u128 = 20_000_000_000;
const MOST_ANY: u128 = 300_000;

/// What a record may be: its words, and its run.
struct Choice {
    words: Vec<u32>,
    run: Vec<u32>,
}

/// What each record and each mention of a shape may be.
struct Alphabet {
    records: Vec<(usize, usize, Vec<Choice>)>,
}

/// All shapes with the number of modules of each and of all before it.
pub struct Small {
    shapes: &'static [(Shape, u64)],
    before: &'static [u64],
    ready: RefCell<Option<(usize, Rc<Alphabet>)>>,
}

/// The shapes in their order, each with its modules; and how many lie before each.
type Order = (Vec<(Shape, u64)>, Vec<u64>);

fn order() -> Order {
    let mut shapes: Vec<(Shape, u64)> = Vec::new();
    for number in 0..4 * 3 * 3 * 2 * 4 * 3 * 2 {
        let shape = Shape {
            counts: [
                number % 4,
                number / 4 % 3,
                number / 12 % 3,
                number / 36 % 2,
                number / 72 % 4,
                number / 288 % 3,
            ],
            older: number >= 864,
        };
        let total = Alphabet::new(shape).total();
        let most = if shape.older { MOST_OLDER } else { MOST_ANY };
        if (1..=most).contains(&total) {
            shapes.push((shape, total as u64));
        }
    }
    shapes.sort_by_key(|(shape, total)| (*total, *shape));
    let mut sum = 0;
    let before = shapes.iter().map(|(_, total)| {
        sum += total;
        sum - total
    });
    let before = before.collect();
    (shapes, before)
}

impl Small {
    pub fn new() -> Self {
        static ORDER: OnceLock<Order> = OnceLock::new();
        let (shapes, before) = ORDER.get_or_init(order);
        Small {
            shapes,
            before,
            ready: RefCell::new(None),
        }
    }

    /// How many shapes lie whole before this number, and how many there are.
    pub fn progress(&self, number: u64) -> (usize, usize) {
        let begun = self.before.partition_point(|before| *before <= number);
        (begun.saturating_sub(1), self.shapes.len())
    }

    /// The module with this number.
    pub fn module(&self, number: u64) -> Option<Flat> {
        let at = self.before.partition_point(|before| *before <= number) - 1;
        let (shape, total) = self.shapes[at];
        let place = number - self.before[at];
        if place >= total {
            return None;
        }
        Some(self.alphabet(at, shape).module(scattered(place, total)))
    }

    /// Which shape the module with this number has, as text.
    #[cfg(test)]
    pub fn shape(&self, number: u64) -> String {
        let at = self.before.partition_point(|before| *before <= number) - 1;
        format!("{:?}", self.shapes[at].0)
    }

    /// The alphabet of a shape, made once while modules of that shape follow each other.
    fn alphabet(&self, at: usize, shape: Shape) -> Rc<Alphabet> {
        let mut ready = self.ready.borrow_mut();
        match ready.as_ref() {
            Some((of, alphabet)) if *of == at => alphabet.clone(),
            _ => {
                let alphabet = Rc::new(Alphabet::new(shape));
                *ready = Some((at, alphabet.clone()));
                alphabet
            }
        }
    }
}

/// A bijection of the numbers below `total`.
fn scattered(place: u64, total: u64) -> u64 {
    let mut step = (total as f64 * 0.618_033_988_749) as u64 | 1;
    while common(step, total) != 1 {
        step += 2;
    }
    (u128::from(place) * u128::from(step) % u128::from(total)) as u64
}

/// The greatest common divisor.
fn common(a: u64, b: u64) -> u64 {
    if b == 0 {
        a
    } else {
        common(b, a % b)
    }
}

impl Alphabet {
    fn new(shape: Shape) -> Self {
        let mut records = Vec::new();
        for (area, count) in shape.counts.iter().enumerate() {
            for place in 0..*count {
                let choices = match area {
                    TYPES => types(shape, place),
                    CONSTANTS => constants(shape),
                    OVERRIDES => overrides(shape),
                    GLOBALS => globals(shape),
                    EXPRESSIONS => expressions(shape, place),
                    _ => mentions(shape),
                };
                records.push((area, place, choices));
            }
        }
        Alphabet { records }
    }

    /// How many modules there are of this shape.
    fn total(&self) -> u128 {
        let choices = self.records.iter().map(|record| record.2.len() as u128);
        choices.fold(1, u128::saturating_mul)
    }

    fn module(&self, mut number: u64) -> Flat {
        let mut flat = Flat::default();
        for (area, place, choices) in &self.records {
            let choice = &choices[(number % choices.len() as u64) as usize];
            number /= choices.len() as u64;
            put(&mut flat, *area, *place, choice);
        }
        flat.fit_rooms();
        flat
    }
}

impl Shape {
    /// The types or expressions that the one at a place may name.
    fn named(self, area: usize, place: usize) -> std::ops::Range<u32> {
        if self.older {
            all(place)
        } else {
            all(self.counts[area])
        }
    }
}

/// Appends a record with its tag, and its run at the pool's end.
fn put(flat: &mut Flat, area: usize, place: usize, choice: &Choice) {
    if area == 5 {
        flat.push(MENTIONS, &choice.words);
        return;
    }
    let mut record = choice.words.clone();
    if let Some(start) = record.iter().position(|word| *word == OPEN) {
        let pool = &mut flat.areas[pool_of(area)];
        record[start] = pool.len() as u32;
        pool.extend(&choice.run);
    }
    flat.push_with(area, &record, [0, 0, (10 * area + place) as u32]);
}

/// Stands for the start of a run until the pool's length is known.
const OPEN: u32 = N - 1;

fn all(count: usize) -> std::ops::Range<u32> {
    0..count as u32
}

/// N and each handle.
fn maybe(count: usize) -> Vec<u32> {
    std::iter::once(N).chain(all(count)).collect()
}

fn choice(words: &[u32], run: &[u32]) -> Choice {
    let (words, run) = (words.to_vec(), run.to_vec());
    Choice { words, run }
}

fn types(shape: Shape, place: usize) -> Vec<Choice> {
    let named = || shape.named(TYPES, place);
    let mut list = Vec::new();
    for flags in 0..3 {
        list.push(choice(&[0, flags, N, N], &[]));
    }
    for flags in 0..2 {
        for base in named() {
            list.push(choice(&[1, flags, base, N], &[]));
            for sizer in all(shape.counts[OVERRIDES]) {
                list.push(choice(&[2, flags, base, sizer], &[]));
            }
        }
        list.push(choice(&[3, flags, OPEN, 0], &[]));
    }
    for member in named() {
        list.push(choice(&[3, 0, OPEN, 1], &[member]));
        for second in named().take(2) {
            list.push(choice(&[3, 0, OPEN, 2], &[member, second]));
        }
    }
    list
}

fn constants(shape: Shape) -> Vec<Choice> {
    let [types, .., expressions, _] = shape.counts;
    let mut list = Vec::new();
    for ty in all(types) {
        for init in all(expressions) {
            list.push(choice(&[0, ty, init], &[]));
            list.push(choice(&[1, ty, init], &[]));
        }
    }
    list
}

fn overrides(shape: Shape) -> Vec<Choice> {
    let [types, .., expressions, _] = shape.counts;
    let mut list = Vec::new();
    for ty in all(types) {
        for init in maybe(expressions) {
            list.push(choice(&[0, ty, init], &[]));
            list.push(choice(&[1, ty, init], &[]));
        }
    }
    list
}

fn globals(shape: Shape) -> Vec<Choice> {
    let [types, .., expressions, _] = shape.counts;
    let mut list = Vec::new();
    for ty in all(types) {
        for init in maybe(expressions) {
            list.push(choice(&[ty, init], &[]));
        }
    }
    list
}

fn expressions(shape: Shape, place: usize) -> Vec<Choice> {
    let [types, constants, overrides, ..] = shape.counts;
    let named = || shape.named(EXPRESSIONS, place);
    let record = |kind: u32, slots: &[u32]| {
        let mut words = vec![N; BODIES[EXPRESSIONS]];
        words[0] = kind;
        words[1..=slots.len()].copy_from_slice(slots);
        words
    };
    let mut list = vec![choice(&record(0, &[]), &[])];
    let mut add = |kind: u32, slots: &[u32], run: &[u32]| {
        list.push(choice(&record(kind, slots), run));
    };
    for constant in all(constants) {
        add(CONSTANT, &[constant], &[]);
    }
    for item in all(overrides) {
        add(OVERRIDE, &[item], &[]);
    }
    for ty in all(types) {
        add(7, &[ty], &[]);
        add(COMPOSE, &[ty, OPEN, 0], &[]);
        for component in named() {
            add(COMPOSE, &[ty, OPEN, 1], &[component]);
        }
    }
    for operand in named() {
        add(14, &[operand], &[]);
        add(IMAGE_QUERY, &[operand, 0, N], &[]);
        for level in named().take(2) {
            add(IMAGE_QUERY, &[operand, 0, level], &[]);
        }
    }
    list
}

fn mentions(shape: Shape) -> Vec<Choice> {
    let mut list = Vec::new();
    for (area, count) in shape.counts.iter().take(5).enumerate() {
        for handle in all(*count) {
            list.push(choice(&[area as u32, handle], &[]));
        }
    }
    list
}
