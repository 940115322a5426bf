//! From words to text.

use super::{
    shapes::SHAPES,
    singular,
    value::{self, push_number, Value},
    ARENAS,
};
use cadnohal::{Area, Module};
use std::fmt::Write;

/// How many words of a pool stand on a line.
const POOL_WORDS_A_LINE: usize = 16;

/// Writes a module so that [`read`](super::read()) gives the same words in all eight areas.
pub fn write(module: &Module) -> String {
    let mut writer = Writer {
        module,
        given: [0; 2],
        out: String::new(),
    };
    for area in Area::ALL {
        let before = writer.out.len();
        writer.area(area);
        if writer.out.len() > before && before > 0 {
            writer.out.insert(before, '\n');
        }
    }
    writer.out
}

struct Writer<'a> {
    module: &'a Module,
    /// How many words of the member and of the component pool the runs written so far have given.
    given: [usize; 2],
    out: String,
}

impl Writer<'_> {
    fn area(&mut self, area: Area) {
        let words = self.module.area(area);
        match area {
            Area::Members => self.pool(area, &words[self.given[0]..]),
            Area::Components => self.pool(area, &words[self.given[1]..]),
            _ => {
                let records = words.chunks_exact(area.width());
                let stray = records.remainder();
                for (handle, record) in records.enumerate() {
                    self.record(area, record);
                    writeln!(self.out, "  # {} {handle}", singular(area))
                        .expect("a string takes all");
                }
                if !stray.is_empty() {
                    self.raw(area, stray);
                    self.out.push_str("  # no whole record\n");
                }
            }
        }
    }

    /// What no written run has given to a pool.
    fn pool(&mut self, pool: Area, rest: &[u32]) {
        for words in rest.chunks(POOL_WORDS_A_LINE) {
            self.raw(pool, words);
            self.out.push('\n');
        }
    }

    fn record(&mut self, area: Area, words: &[u32]) {
        let written = match area {
            Area::Mentions => self.mention(words),
            _ => self.readable(area, words),
        };
        if written.is_none() {
            self.raw(area, words);
        }
    }

    fn mention(&mut self, words: &[u32]) -> Option<()> {
        let area = ARENAS.get(words[0] as usize)?;
        write!(self.out, "mention {}=", singular(*area)).expect("a string takes all");
        push_number(words[1], &mut self.out);
        Some(())
    }

    /// Writes a record by its keys, if they can hold all its words.
    fn readable(&mut self, area: Area, words: &[u32]) -> Option<()> {
        let shape = SHAPES.of(area, words)?;
        let values = value::from_words(shape, words, self.module)?;
        let given = &mut self.given[usize::from(area != Area::Types)];
        let start = u32::try_from(*given).ok()?;
        if value::to_words(shape, &values, start) != words {
            return None;
        }
        self.out.push_str(&shape.head);
        for (key, value) in shape.keys.iter().zip(&values) {
            if let Some(value) = value {
                value::to_text(key, value, &mut self.out);
            }
            if let Some(Value::List(list)) = value {
                *given += list.len();
            }
        }
        Some(())
    }

    fn raw(&mut self, area: Area, words: &[u32]) {
        write!(self.out, "raw {area}").expect("a string takes all");
        for &word in words {
            self.out.push(' ');
            push_number(word, &mut self.out);
        }
    }
}
