//! The words of the host's own that end each record of areas 0 to 4.
#![forbid(unsafe_code)]

use crate::kinds::{Area, N, SPAN_LENGTH, SPAN_START, TAG, TAIL};
use std::fmt;

/// Where in the host's own text a record's element stands. Any two words will do: like the tag they
/// are carried along unread, and a [`Refusal`](crate::Refusal) tells those of the refused record.
///
/// ```
/// use cadnohal::{Span, N};
///
/// assert_eq!(Span { start: 412, length: 9 }.to_string(), "412,9");
/// assert_eq!(Span { start: N, length: 0 }.to_string(), "N,0");
/// assert_eq!(Span::default(), Span { start: 0, length: 0 });
/// ```
#[derive(Clone, Copy, Debug, Default, PartialEq, Eq, Hash)]
pub struct Span {
    /// Where it begins.
    pub start: u32,
    /// How long it is.
    pub length: u32,
}

impl Span {
    /// Whether there is anything to tell: a host that has no span leaves both words 0.
    pub fn is_given(self) -> bool {
        self != Self::default()
    }
}

impl fmt::Display for Span {
    fn fmt(&self, f: &mut fmt::Formatter<'_>) -> fmt::Result {
        let (start, length) = (Word(self.start), Word(self.length));
        write!(f, "{start},{length}")
    }
}

/// A word, N by its letter.
pub(crate) struct Word(pub u32);

impl fmt::Display for Word {
    fn fmt(&self, f: &mut fmt::Formatter<'_>) -> fmt::Result {
        match self.0 {
            N => f.write_str("N"),
            word => write!(f, "{word}"),
        }
    }
}

/// A record of areas 0 to 4: the words before the tail, and the tail.
pub(crate) type Record<const WORDS: usize> = ([u32; WORDS], Tail);

/// The tail of a record: its span and its tag.
#[derive(Clone, Copy)]
pub(crate) struct Tail {
    pub span: Span,
    pub tag: u32,
}

impl Tail {
    pub(crate) fn new(span: Span, tag: u32) -> Self {
        Self { span, tag }
    }

    pub(crate) fn encode(self) -> [u32; TAIL] {
        let mut words = [0; TAIL];
        words[SPAN_START] = self.span.start;
        words[SPAN_LENGTH] = self.span.length;
        words[TAG] = self.tag;
        words
    }

    /// The tail of a record of `area`; `None` if the area has no tails or the words are no record.
    pub(crate) fn decode(area: Area, record: &[u32]) -> Option<Self> {
        let words: [u32; TAIL] = record.get(area.tail_at()..)?.try_into().ok()?;
        let span = Span {
            start: words[SPAN_START],
            length: words[SPAN_LENGTH],
        };
        Some(Self::new(span, words[TAG]))
    }
}
