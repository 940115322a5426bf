//! A place in a source text.

use std::ops::Range;

#[derive(Clone, Copy, Debug, Default, PartialEq, Eq)]
pub struct Span {
    start: u32,
    end: u32,
}

impl Span {
    pub const fn new(start: u32, end: u32) -> Self {
        Span { start, end }
    }

    /// The two words, unless both are 0.
    pub fn to_range(self) -> Option<Range<usize>> {
        (self != Self::default()).then_some(self.start as usize..self.end as usize)
    }
}
