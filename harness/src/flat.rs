//! The flat module of document 01: eight areas of words, and what each word of a record is.

use std::slice::{ChunksExact, ChunksExactMut};

/// "No handle".
pub const N: u32 = u32::MAX;

pub const TYPES: usize = 0;
pub const CONSTANTS: usize = 1;
pub const OVERRIDES: usize = 2;
pub const GLOBALS: usize = 3;
pub const EXPRESSIONS: usize = 4;
pub const MEMBERS: usize = 5;
pub const COMPONENTS: usize = 6;
pub const MENTIONS: usize = 7;

pub const AREAS: [&str; 8] = [
    "types",
    "constants",
    "overrides",
    "globals",
    "expressions",
    "members",
    "components",
    "mentions",
];
pub const MAPS: [&str; 5] = [
    "type_map",
    "constant_map",
    "override_map",
    "global_map",
    "expression_map",
];

/// Words of a record before its tail, for each arena.
pub const BODIES: [usize; 5] = [4, 3, 3, 2, 10];

/// The words that end a record of an arena: start and length of its span, and its tag.
pub type Tail = [u32; 3];

/// Where these stand in a tail.
pub const START: usize = 0;
pub const LENGTH: usize = 1;
pub const TAG: usize = 2;

/// Words of a record of an arena.
const fn width(arena: usize) -> usize {
    BODIES[arena] + size_of::<Tail>() / size_of::<u32>()
}

/// Words of a record, for each area.
pub const WIDTHS: [usize; 8] = [
    width(TYPES),
    width(CONSTANTS),
    width(OVERRIDES),
    width(GLOBALS),
    width(EXPRESSIONS),
    1,
    1,
    2,
];

/// Most records, for each area.
pub const LIMITS: [usize; 8] = [65536, 65536, 65536, 65536, 65536, 262144, 262144, 65536];

pub const TYPE_KINDS: u32 = 4;
pub const EXPRESSION_KINDS: u32 = 34;

pub const NAMED: u32 = 1;
pub const ABSTRACT: u32 = 2;

pub const CONSTANT: u32 = 5;
pub const OVERRIDE: u32 = 6;
pub const COMPOSE: u32 = 8;
pub const GLOBAL_VARIABLE: u32 = 13;
pub const LOAD: u32 = 14;
pub const IMAGE_SAMPLE: u32 = 15;
pub const IMAGE_QUERY: u32 = 17;
pub const CALL_RESULT: u32 = 27;

/// Where the level form of an `ImageSample` and the form of an `ImageQuery` stand, after the kind.
pub const LEVEL_FORM: usize = 5;
pub const QUERY_FORM: usize = 1;

/// A module as it is lent: the words of its areas, and how many words each map has.
#[derive(Clone, Debug, Default, PartialEq, Eq)]
pub struct Flat {
    pub areas: [Vec<u32>; 8],
    pub rooms: [usize; 5],
}

impl Flat {
    /// Whole records of an area.
    pub fn records(&self, area: usize) -> usize {
        self.areas[area].len() / WIDTHS[area]
    }

    pub fn record(&self, area: usize, place: usize) -> &[u32] {
        let width = WIDTHS[area];
        &self.areas[area][place * width..(place + 1) * width]
    }

    pub fn record_mut(&mut self, area: usize, place: usize) -> &mut [u32] {
        let width = WIDTHS[area];
        &mut self.areas[area][place * width..(place + 1) * width]
    }

    /// The records of an area, in order.
    pub fn each(&self, area: usize) -> ChunksExact<'_, u32> {
        self.areas[area].chunks_exact(WIDTHS[area])
    }

    pub fn each_mut(&mut self, area: usize) -> ChunksExactMut<'_, u32> {
        self.areas[area].chunks_exact_mut(WIDTHS[area])
    }

    /// The tail of a record of an arena.
    pub fn tail(&self, area: usize, place: usize) -> Tail {
        tail(area, self.record(area, place))
    }

    pub fn push(&mut self, area: usize, record: &[u32]) {
        assert_eq!(record.len(), WIDTHS[area]);
        self.areas[area].extend_from_slice(record);
    }

    /// Appends a record of an arena: the words before its tail, and its tail.
    pub fn push_with(&mut self, area: usize, body: &[u32], tail: Tail) {
        assert_eq!(body.len(), BODIES[area]);
        self.areas[area].extend_from_slice(body);
        self.areas[area].extend(tail);
    }

    /// Gives each map as many words as its arena has records.
    pub fn fit_rooms(&mut self) {
        for area in 0..5 {
            self.rooms[area] = self.records(area);
        }
    }

    /// All words of all areas.
    pub fn words(&self) -> usize {
        self.areas.iter().map(Vec::len).sum()
    }
}

/// The tail of a record of an arena.
pub fn tail(area: usize, record: &[u32]) -> Tail {
    let from = BODIES[area];
    [START, LENGTH, TAG].map(|word| record[from + word])
}

/// What a word of a record is.
#[derive(Clone, Copy, Debug, PartialEq, Eq)]
pub enum Slot {
    /// Not named by the kind or by its form.
    Unused,
    /// A handle of this area that must be there.
    Need(usize),
    /// A handle of this area, or N.
    May(usize),
    /// A form, up to this one.
    Form(u32),
    /// The start of a run.
    Start,
    /// The count of a run.
    Count,
}

use Slot::{Count, Form, May, Need, Start, Unused};

/// The words a and b of a type.
pub fn type_slots(kind: u32) -> [Slot; 2] {
    match kind {
        1 => [Need(TYPES), Unused],
        2 => [Need(TYPES), Need(OVERRIDES)],
        3 => [Start, Count],
        _ => [Unused, Unused],
    }
}

/// The nine slots of an expression with these words (kind, slots, tail).
pub fn expression_slots(record: &[u32]) -> [Slot; 9] {
    const E: Slot = Need(EXPRESSIONS);
    const O: Slot = May(EXPRESSIONS);
    let mut slots = [Unused; 9];
    let mut fill = |list: &[Slot]| slots[..list.len()].copy_from_slice(list);
    match record[0] {
        5 => fill(&[Need(CONSTANTS)]),
        6 => fill(&[Need(OVERRIDES)]),
        7 | 28 | 29 | 30 => fill(&[Need(TYPES)]),
        8 => fill(&[Need(TYPES), Start, Count]),
        10 | 11 | 12 | 14 | 18 | 19 | 22 | 23 | 25 | 26 | 31 => fill(&[E]),
        9 | 20 | 32 => fill(&[E, E]),
        21 | 33 => fill(&[E, E, E]),
        15 => {
            let (x, y) = match record[1 + LEVEL_FORM] {
                2 | 3 => (E, Unused),
                4 => (E, E),
                _ => (Unused, Unused),
            };
            fill(&[E, E, E, O, O, Form(4), x, y, O]);
        }
        16 => fill(&[E, E, O, O, O]),
        17 => {
            let level = if record[1 + QUERY_FORM] == 0 {
                O
            } else {
                Unused
            };
            fill(&[E, Form(3), level]);
        }
        24 => fill(&[E, O, O, O]),
        _ => {}
    }
    slots
}

/// The words of a constant, override or global after its `named`, if it has one, and before its tail.
pub fn plain_slots(area: usize) -> [Slot; 2] {
    match area {
        CONSTANTS => [Need(TYPES), Need(EXPRESSIONS)],
        _ => [Need(TYPES), May(EXPRESSIONS)],
    }
}

/// Where the slots of a record begin: after the words that are no slots.
pub const FIRST_SLOT: [usize; 5] = [2, 1, 1, 0, 1];

/// The slots of a record, as many as it has.
#[derive(Clone, Copy)]
pub struct Slots {
    list: [Slot; 9],
    count: usize,
}

impl std::ops::Deref for Slots {
    type Target = [Slot];

    fn deref(&self) -> &[Slot] {
        &self.list[..self.count]
    }
}

/// The slots of a record of areas 0 to 4.
pub fn slots(area: usize, record: &[u32]) -> Slots {
    if area == EXPRESSIONS {
        let list = expression_slots(record);
        return Slots { list, count: 9 };
    }
    let mut list = [Unused; 9];
    let two = match area {
        TYPES => type_slots(record[0]),
        _ => plain_slots(area),
    };
    list[..2].copy_from_slice(&two);
    Slots { list, count: 2 }
}

/// The pool that the runs of an area lie in.
pub fn pool_of(area: usize) -> usize {
    if area == TYPES {
        MEMBERS
    } else {
        COMPONENTS
    }
}

/// The handles that a record's slots and run give, with the area of each. The record must be well formed.
pub fn handles(flat: &Flat, area: usize, place: usize, mut each: impl FnMut(usize, u32)) {
    let record = flat.record(area, place);
    let words = &record[FIRST_SLOT[area]..];
    for (number, slot) in slots(area, record).iter().enumerate() {
        let word = words[number];
        match *slot {
            Need(to) => each(to, word),
            May(to) if word != N => each(to, word),
            Start => {
                let (start, count) = (word as usize, words[number + 1] as usize);
                for item in &flat.areas[pool_of(area)][start..start + count] {
                    each(area, *item);
                }
            }
            May(_) | Form(_) | Count | Unused => {}
        }
    }
}

/// The answer of a pass or a check, as the C boundary has it.
#[repr(C)]
#[derive(Clone, Copy, Debug, Default, PartialEq, Eq)]
pub struct Answer {
    pub number: u32,
    pub area: u32,
    pub record: u32,
    pub counts: [u32; 7],
}

/// A refusal: number, area, record; in document 01's order.
#[derive(Clone, Copy, Debug, PartialEq, Eq, PartialOrd, Ord, Hash)]
pub struct Refusal {
    pub number: u32,
    pub area: u32,
    pub record: u32,
}

impl Refusal {
    pub fn new(number: u32, area: usize, record: usize) -> Self {
        Refusal {
            number,
            area: area as u32,
            record: record as u32,
        }
    }

    /// The answer that tells it.
    pub fn answer(self) -> Answer {
        Answer {
            number: self.number,
            area: self.area,
            record: self.record,
            counts: [0; 7],
        }
    }
}

/// What an accepted pass answers and leaves: the words of each area, and of each map the part that
/// belongs to old records.
#[derive(Clone, Debug, PartialEq, Eq)]
pub struct After {
    pub counts: [u32; 7],
    pub areas: [Vec<u32>; 8],
    pub maps: [Vec<u32>; 5],
}
