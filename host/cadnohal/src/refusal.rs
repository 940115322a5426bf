//! Refusals 1 to 7 and how they read.
#![forbid(unsafe_code)]

use crate::{
    compact::Maps,
    ffi::Answer,
    kinds::{kind_of, Area},
    module::Module,
    tail::{Span, Tail, Word},
    words::run,
};
use std::fmt;

/// Why and where a module was refused. Not a word of its areas and maps has changed.
///
/// ```
/// use cadnohal::{Expression, ExpressionHandle, Module, Span};
///
/// let mut module = Module::new();
/// module.add_expression(Expression::Literal, Span { start: 408, length: 2 }, 20);
/// let itself = Expression::Unary { expr: ExpressionHandle(1) };
/// module.add_expression(itself, Span { start: 412, length: 9 }, 21);
/// let refusal = module.check().unwrap_err();
/// assert_eq!(
///     refusal.to_string(),
///     "refusal 7 at expressions, record 1, span 412,9: the expression isn't well ordered: something \
///      that it rests on must stand before it (words: 19 Unary 1 N N N N N N N N 412 9 21)"
/// );
/// assert_eq!(refusal.span(), module.span(refusal.area, refusal.record));
/// ```
#[derive(Clone, Debug, PartialEq, Eq)]
pub struct Refusal {
    /// 1 to 7.
    pub number: u32,
    /// The area of the fault; for 3 the arena whose map is too short.
    pub area: Area,
    /// The record of the fault; 0 for numbers 1 to 3 and for a pool.
    pub record: u32,
    /// The record's words; none for numbers 1 to 3 and for a pool.
    pub words: Vec<u32>,
    /// The words of the pool that the record's run names, if it has one.
    pub run: Vec<u32>,
    /// How many words the area has.
    pub length: usize,
    /// How many words the area's map has; 0 for an area without one.
    pub map_length: usize,
}

impl Refusal {
    pub(crate) fn new(module: &Module, answer: &Answer, maps: &Maps) -> Self {
        let Answer { number, record, .. } = *answer;
        // The library answers areas 0 to 7 only.
        let area = Area::ALL[answer.area.min(7) as usize];
        let words = match (number, area) {
            (1..=3, _) | (_, Area::Members | Area::Components) => &[],
            _ => module.record(area, record).unwrap_or_default(),
        };
        let run = match (area, words) {
            (Area::Types, &[3, _, start, count, ..]) => run(&module.members, start, count),
            (Area::Expressions, &[8, _, start, count, ..]) => run(&module.components, start, count),
            _ => None,
        };
        Self {
            number,
            area,
            record,
            words: words.to_vec(),
            run: run.unwrap_or_default().to_vec(),
            length: module.area(area).len(),
            map_length: maps.words().get(area as usize).map_or(0, |map| map.len()),
        }
    }

    /// The span of the refused record; `None` where no record is refused or a mention is, which has
    /// none.
    pub fn span(&self) -> Option<Span> {
        Some(Tail::decode(self.area, &self.words)?.span)
    }

    /// What the number means, as far as number and area tell.
    pub fn meaning(&self) -> &'static str {
        match (self.number, self.area) {
            (1, _) => "the area's length isn't a multiple of its record width",
            (2, _) => "the area has more records than its limit",
            (3, _) => "the map is shorter than the area's record count",
            (4, Area::Types) => "the kind, flags, an unused slot or the run breaks the rules",
            (4, Area::Constants | Area::Overrides) => "named is neither 0 nor 1",
            (4, Area::Expressions) => {
                "the kind, the form, an unused slot or the run breaks the rules"
            }
            (4, Area::Members | Area::Components) => "the pool is longer than its runs",
            (4, Area::Mentions) => "the mention's area isn't 0 to 4",
            (5, _) => "GlobalVariable and CallResult are not of module scope",
            (6, _) => {
                "a handle that must be there is N, or a handle isn't below its area's record count"
            }
            (7, Area::Types) => {
                "the type isn't well ordered: something that it rests on must stand before it"
            }
            (7, _) => {
                "the expression isn't well ordered: something that it rests on must stand before it"
            }
            _ => "the module breaks the rules",
        }
    }
}

impl fmt::Display for Refusal {
    fn fmt(&self, f: &mut fmt::Formatter<'_>) -> fmt::Result {
        let (area, length) = (self.area, self.length);
        let count = length / area.width();
        write!(f, "refusal {} at {area}", self.number)?;
        if !self.words.is_empty() {
            write!(f, ", record {}", self.record)?;
        }
        if let Some(span) = self.span().filter(|span| span.is_given()) {
            write!(f, ", span {span}")?;
        }
        write!(f, ": {} (", self.meaning())?;
        match self.number {
            1 => write!(f, "length {length}, width {}", area.width())?,
            2 => write!(f, "record count {count}, limit {}", area.limit())?,
            3 => write!(f, "map length {}, record count {count}", self.map_length)?,
            _ => match (area, self.words.as_slice()) {
                (_, []) => write!(f, "length {length}")?,
                (Area::Types | Area::Expressions, [code, rest @ ..]) => {
                    let name = kind_of(area, &self.words).map_or("no kind", |kind| kind.name);
                    write!(f, "words: {} {name} {}", Words(&[*code]), Words(rest))?;
                }
                (_, words) => write!(f, "words: {}", Words(words))?,
            },
        }
        if !self.run.is_empty() {
            write!(f, "; run: {}", Words(&self.run))?;
        }
        write!(f, ")")
    }
}

impl std::error::Error for Refusal {}

/// Words with spaces between them, N as `N`; past a record's worth only how many follow.
struct Words<'a>(&'a [u32]);

impl fmt::Display for Words<'_> {
    fn fmt(&self, f: &mut fmt::Formatter<'_>) -> fmt::Result {
        let (shown, rest) = self.0.split_at(self.0.len().min(16));
        for (i, &word) in shown.iter().enumerate() {
            let space = if i == 0 { "" } else { " " };
            write!(f, "{space}{}", Word(word))?;
        }
        match rest.len() {
            0 => Ok(()),
            more => write!(f, " and {more} more"),
        }
    }
}
