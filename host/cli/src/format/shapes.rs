//! The readable records: their keys, made from the library's table of kinds.

use cadnohal::{
    kinds::{self, Holds, Kind, Slot, TAG},
    Area,
};
use std::sync::LazyLock;

/// A form of a level or query: its name and how many numbers it takes.
#[derive(Debug, PartialEq, Eq)]
pub struct Form {
    /// The name in the text.
    pub name: &'static str,
    /// The fewest numbers.
    pub least: usize,
    /// The most numbers.
    pub most: usize,
}

const fn form(name: &'static str, least: usize, most: usize) -> Form {
    Form { name, least, most }
}

/// The forms of an `ImageSample`'s level, in the order of their numbers.
static LEVELS: [Form; 5] = [
    form("auto", 0, 0),
    form("zero", 0, 0),
    form("exact", 1, 1),
    form("bias", 1, 1),
    form("gradient", 2, 2),
];

/// The forms of an `ImageQuery`'s query, in the order of their numbers.
static QUERIES: [Form; 4] = [
    form("size", 0, 1),
    form("num_levels", 0, 0),
    form("num_layers", 0, 0),
    form("num_samples", 0, 0),
];

/// What a key stands for.
#[derive(Clone, Copy)]
pub enum Held {
    /// A word without a value that only tells the kind.
    Mark,
    /// A word without a value that sets this bit.
    Bit(u32),
    /// A number that must be given.
    Needed,
    /// A number that is N if left out.
    Optional,
    /// Two numbers that are 0 if left out; the key's place is that of the record's tail.
    Span,
    /// A number that is 0 if left out.
    Tag,
    /// A list: start and count of a run of this pool.
    List(Area),
    /// A form, then room for its numbers.
    Form(&'static [Form]),
}

/// A key of a readable record and the word where what it stands for begins.
#[derive(Clone, Copy)]
pub struct Key {
    /// The name in the text.
    pub name: &'static str,
    /// The place of the word in the record.
    pub at: usize,
    /// What it stands for.
    pub held: Held,
}

impl Key {
    /// Whether a record without this key is unreadable.
    pub fn needed(&self) -> bool {
        matches!(
            self.held,
            Held::Mark | Held::Needed | Held::List(_) | Held::Form(_)
        )
    }
}

/// A readable record.
pub struct Shape {
    /// What messages call it.
    pub title: &'static str,
    /// What stands before its keys.
    pub head: String,
    /// Its area.
    pub area: Area,
    /// Its kind's number; 0 where the area has one kind.
    pub code: u32,
    /// Its keys, in the order in which they are written.
    pub keys: Vec<Key>,
}

impl Shape {
    /// The place among its keys of the one with this name.
    pub fn place(&self, name: &str) -> Option<usize> {
        self.keys.iter().position(|key| key.name == name)
    }
}

/// The shapes of all kinds that the library knows.
pub static SHAPES: LazyLock<Shapes> = LazyLock::new(Shapes::new);

/// All readable records but mentions.
pub struct Shapes {
    /// The four kinds of types.
    pub types: Vec<Shape>,
    /// Constants.
    pub constant: Shape,
    /// Overrides.
    pub r#override: Shape,
    /// Globals.
    pub global: Shape,
    /// The 34 kinds of expressions.
    pub expressions: Vec<Shape>,
}

/// What messages call the four kinds of types.
const TYPE_TITLES: [&str; 4] = [
    "a leaf type",
    "a type with a base",
    "a type sized by an override",
    "a type with members",
];

impl Shapes {
    fn new() -> Self {
        let one = |title, head: &str, area, kind| shape(title, head.into(), area, 0, kind);
        let types = kinds::TYPES.iter().zip(TYPE_TITLES).zip(0..);
        let expressions = kinds::EXPRESSIONS.iter().zip(0..);
        Self {
            types: types
                .map(|((kind, title), code)| shape(title, "type".into(), Area::Types, code, kind))
                .collect(),
            constant: one("a constant", "constant", Area::Constants, &kinds::CONSTANT),
            r#override: one("an override", "override", Area::Overrides, &kinds::OVERRIDE),
            global: one("a global", "global", Area::Globals, &kinds::GLOBAL),
            expressions: expressions
                .map(|(kind, code)| {
                    let head = format!("expression {}", kind.name);
                    shape(kind.name, head, Area::Expressions, code, kind)
                })
                .collect(),
        }
    }

    /// The shape of a record's words, if its kind has one.
    pub fn of(&self, area: Area, words: &[u32]) -> Option<&Shape> {
        let code = words[0] as usize;
        match area {
            Area::Types => self.types.get(code),
            Area::Constants => Some(&self.constant),
            Area::Overrides => Some(&self.r#override),
            Area::Globals => Some(&self.global),
            Area::Expressions => self.expressions.get(code),
            Area::Members | Area::Components | Area::Mentions => None,
        }
    }
}

/// A shape from its kind: flags and marks first, then the slots, then the tail's span and tag.
fn shape(title: &'static str, head: String, area: Area, code: u32, kind: &Kind) -> Shape {
    let key = |name, at, held| Key { name, at, held };
    let mut keys = match area {
        Area::Types if kind.slots.is_empty() => vec![key("leaf", 0, Held::Mark)],
        _ => Vec::new(),
    };
    match area {
        Area::Types => keys.extend([
            key("named", 1, Held::Bit(1)),
            key("abstract", 1, Held::Bit(2)),
        ]),
        Area::Constants | Area::Overrides => keys.push(key("named", 0, Held::Bit(1))),
        _ => {}
    }
    let slots = (area.slots_at()..).zip(kind.slots);
    keys.extend(slots.filter_map(|(at, slot)| slot_key(area, at, slot)));
    let tail = area.tail_at();
    keys.extend([
        key("span", tail, Held::Span),
        key("tag", tail + TAG, Held::Tag),
    ]);
    Shape {
        title,
        head,
        area,
        code,
        keys,
    }
}

/// The key of a slot; none for a slot that belongs to the key before it.
fn slot_key(area: Area, at: usize, slot: &Slot) -> Option<Key> {
    let (name, held) = match slot.holds {
        Holds::Handle(_) => (key_name(area, slot.name), Held::Needed),
        Holds::Optional(_) => (slot.name, Held::Optional),
        Holds::Start(pool) => (pool.name(), Held::List(pool)),
        Holds::Form(_) if slot.name == "level" => (slot.name, Held::Form(&LEVELS)),
        Holds::Form(_) => (slot.name, Held::Form(&QUERIES)),
        Holds::ByForm(_) | Holds::Count(_) => return None,
    };
    Some(Key { name, at, held })
}

/// The key for a slot's name: full words for what a handle is of.
pub fn key_name(area: Area, slot: &'static str) -> &'static str {
    match (area, slot) {
        (_, "ty") => "type",
        (Area::Types, "size") => "override",
        _ => slot,
    }
}
