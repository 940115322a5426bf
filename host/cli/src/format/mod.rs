//! The text format of modules, as docs/FORMAT.md has it.

pub mod read;
mod shapes;
mod token;
mod value;
pub mod write;

pub use read::{read, Fault};
pub use shapes::key_name;
pub use write::write;

use cadnohal::{Area, HandleMap, Maps, Module, Refusal};

/// The areas that have maps, in the order of their numbers.
pub const ARENAS: [Area; 5] = [
    Area::Types,
    Area::Constants,
    Area::Overrides,
    Area::Globals,
    Area::Expressions,
];

/// What one record of an area is called; for areas 0 to 4 also the key of a mention.
pub fn singular(area: Area) -> &'static str {
    match area {
        Area::Types => "type",
        Area::Constants => "constant",
        Area::Overrides => "override",
        Area::Globals => "global",
        Area::Expressions => "expression",
        Area::Members => "member",
        Area::Components => "component",
        Area::Mentions => "mention",
    }
}

/// A module as a text gave it.
#[derive(Clone, Debug, Default)]
pub struct Text {
    /// The words of all eight areas.
    pub module: Module,
    /// How many map words to lend for each arena, where a `room` line says so.
    pub rooms: [Option<u32>; 5],
    /// For each area, where the words of a line begin, and that line's number from 1.
    lines: [Vec<(usize, usize)>; 8],
}

impl Text {
    /// Appends a line's words to an area.
    fn append(&mut self, area: Area, words: &[u32], line: usize) {
        let target = self.module.area_mut(area);
        self.lines[area as usize].push((target.len(), line));
        target.extend_from_slice(words);
    }

    /// Maps of the lengths that the text asks for. Room beyond the records would stay as it was, so
    /// none is lent.
    pub fn maps(&self) -> Maps {
        let words = |area: Area| {
            let records = self.module.count(area);
            let room = self.rooms[area as usize].map_or(records, |room| records.min(room as usize));
            vec![cadnohal::N; room]
        };
        Maps {
            types: HandleMap::from_words(words(Area::Types)),
            constants: HandleMap::from_words(words(Area::Constants)),
            overrides: HandleMap::from_words(words(Area::Overrides)),
            globals: HandleMap::from_words(words(Area::Globals)),
            expressions: HandleMap::from_words(words(Area::Expressions)),
        }
    }

    /// The line on which the refused record begins, if the refusal is about one record.
    pub fn line_of(&self, refusal: &Refusal) -> Option<usize> {
        if refusal.number < 4 || matches!(refusal.area, Area::Members | Area::Components) {
            return None;
        }
        let word = refusal.record as usize * refusal.area.width();
        let lines = &self.lines[refusal.area as usize];
        let after = lines.partition_point(|&(begins, _)| begins <= word);
        Some(lines.get(after.checked_sub(1)?)?.1)
    }
}
