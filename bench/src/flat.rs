//! Flat modules: eight areas and five maps of 32-bit words, owned or lent.

/// "No handle".
pub const N: u32 = u32::MAX;

pub const TYPES: usize = 0;
pub const CONSTANTS: usize = 1;
pub const OVERRIDES: usize = 2;
pub const GLOBALS: usize = 3;
pub const EXPRESSIONS: usize = 4;
pub const MEMBERS: usize = 5;
pub const COMPONENTS: usize = 6;
pub const MENTIONS: usize = 7;

/// The names of the areas, in order.
pub const NAMES: [&str; 8] = [
    "types",
    "constants",
    "overrides",
    "globals",
    "expressions",
    "members",
    "components",
    "mentions",
];

/// What ends each arena's record, carried along unread: the span, which is a start and a length, and the host's tag.
#[derive(Clone, Copy, Debug)]
pub struct Tail {
    pub start: u32,
    pub length: u32,
    pub tag: u32,
}

/// Words in a tail.
pub const TAIL: usize = 3;

impl Tail {
    pub fn words(self) -> [u32; TAIL] {
        [self.start, self.length, self.tag]
    }
}

/// Words in each arena's record before the tail.
pub const BODIES: [usize; 5] = [4, 3, 3, 2, 10];

/// Words in a record of each area.
pub const WIDTHS: [usize; 8] = [
    BODIES[TYPES] + TAIL,
    BODIES[CONSTANTS] + TAIL,
    BODIES[OVERRIDES] + TAIL,
    BODIES[GLOBALS] + TAIL,
    BODIES[EXPRESSIONS] + TAIL,
    1,
    1,
    2,
];

/// The most records of each area.
pub const LIMITS: [usize; 8] = [65536, 65536, 65536, 65536, 65536, 262144, 262144, 65536];

/// The eight areas, lent.
pub struct Areas<'a> {
    pub types: &'a mut [u32],
    pub constants: &'a mut [u32],
    pub overrides: &'a mut [u32],
    pub globals: &'a mut [u32],
    pub expressions: &'a mut [u32],
    pub members: &'a mut [u32],
    pub components: &'a mut [u32],
    pub mentions: &'a mut [u32],
}

/// The five maps, lent.
pub struct Maps<'a> {
    pub types: &'a mut [u32],
    pub constants: &'a mut [u32],
    pub overrides: &'a mut [u32],
    pub globals: &'a mut [u32],
    pub expressions: &'a mut [u32],
}

/// Number, area and record of a refusal, or the seven kept counts; laid out as the header's `cadnohal_answer`.
#[repr(C)]
#[derive(Clone, Copy, Debug, Default, PartialEq, Eq)]
pub struct Answer {
    pub number: u32,
    pub area: u32,
    pub record: u32,
    pub kept: [u32; 7],
}

/// A module with its maps.
#[derive(Clone, Debug, Default, PartialEq, Eq)]
pub struct Module {
    pub areas: [Vec<u32>; 8],
    pub maps: [Vec<u32>; 5],
}

impl Module {
    /// How many records an area has.
    pub fn records(&self, area: usize) -> usize {
        self.areas[area].len() / WIDTHS[area]
    }

    /// Appends a record to an arena.
    pub fn push(&mut self, arena: usize, body: &[u32], tail: Tail) {
        debug_assert_eq!(body.len(), BODIES[arena]);
        self.areas[arena].extend_from_slice(body);
        self.areas[arena].extend(tail.words());
    }

    /// Makes each map as long as its arena, with a word of its own in it.
    pub fn fit_maps(&mut self) {
        for area in 0..5 {
            self.maps[area] = vec![7; self.records(area)];
        }
    }

    pub fn lend(&mut self) -> (Areas<'_>, Maps<'_>) {
        let [types, constants, overrides, globals, expressions, members, components, mentions] =
            self.areas.each_mut().map(Vec::as_mut_slice);
        let areas = Areas {
            types,
            constants,
            overrides,
            globals,
            expressions,
            members,
            components,
            mentions,
        };
        let [types, constants, overrides, globals, expressions] =
            self.maps.each_mut().map(Vec::as_mut_slice);
        let maps = Maps {
            types,
            constants,
            overrides,
            globals,
            expressions,
        };
        (areas, maps)
    }

    /// Copies every word of a module of the same lengths.
    pub fn restore(&mut self, from: &Module) {
        for (to, from) in self.areas.iter_mut().zip(&from.areas) {
            to.copy_from_slice(from);
        }
        for (to, from) in self.maps.iter_mut().zip(&from.maps) {
            to.copy_from_slice(from);
        }
    }

    /// One line `raw AREA words...` for each area, `N` for no handle.
    pub fn to_text(&self) -> String {
        let mut text = String::new();
        for (name, words) in NAMES.iter().zip(&self.areas) {
            text.push_str("raw ");
            text.push_str(name);
            for &word in words {
                text.push(' ');
                match word {
                    N => text.push('N'),
                    _ => text.push_str(&word.to_string()),
                }
            }
            text.push('\n');
        }
        text
    }
}
