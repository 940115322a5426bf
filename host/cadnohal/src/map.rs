//! Maps from old handles to new ones.
#![forbid(unsafe_code)]

use crate::{ffi, handle::Handle, kinds::N};
use std::{fmt, marker::PhantomData, ops::Range};

/// What a pass did to the handles of one arena: at each old record's place its new handle, or N
/// where it was dropped.
///
/// Any words make a map, and the static library answers all that is asked of it.
///
/// ```
/// use cadnohal::{ExpressionHandle, HandleMap, N};
///
/// let map = HandleMap::from_words(vec![N, 0, N, 1, 2]);
/// assert_eq!(map.get(ExpressionHandle(3)), Some(ExpressionHandle(1)));
/// assert_eq!(map.get(ExpressionHandle(2)), None);
/// assert_eq!(map.adjust(ExpressionHandle(4)), Ok(ExpressionHandle(2)));
/// assert_eq!(map.adjust_range(0..1), Ok(0..0));
/// assert_eq!(map.adjust_range(1..4), Ok(0..2));
///
/// let dropped = map.adjust(ExpressionHandle(2)).unwrap_err();
/// assert_eq!(dropped.to_string(), "refusal 9: handle 2 was dropped");
/// let past = map.adjust_range(0..6).unwrap_err();
/// assert_eq!(past.to_string(), "refusal 8: range 0..6 ends above the map's length 5");
/// ```
///
/// A handle of another arena isn't taken:
///
/// ```compile_fail,E0308
/// use cadnohal::{ExpressionHandle, HandleMap, TypeHandle};
///
/// let map: HandleMap<TypeHandle> = HandleMap::from_words(vec![0]);
/// map.get(ExpressionHandle(0));
/// ```
#[derive(Clone, Debug, PartialEq, Eq)]
pub struct HandleMap<H> {
    words: Vec<u32>,
    keys: PhantomData<H>,
}

impl<H: Handle> HandleMap<H> {
    /// The map that these words are.
    pub fn from_words(words: Vec<u32>) -> Self {
        Self {
            words,
            keys: PhantomData,
        }
    }

    /// The map's words.
    pub fn words(&self) -> &[u32] {
        &self.words
    }

    pub(crate) fn words_mut(&mut self) -> &mut [u32] {
        &mut self.words
    }

    /// How many words the map has.
    pub fn len(&self) -> usize {
        self.words.len()
    }

    /// Whether the map has no word.
    pub fn is_empty(&self) -> bool {
        self.words.is_empty()
    }

    /// The new handle; `None` if it was dropped or lies past the map's end.
    pub fn get(&self, handle: H) -> Option<H> {
        match ffi::lookup(&self.words, handle.index()) {
            N => None,
            new => Some(H::new(new)),
        }
    }

    /// The new handle; refused with 8 past the map's end and with 9 if it was dropped.
    pub fn adjust(&self, handle: H) -> Result<H, AdjustError> {
        ffi::adjust(&self.words, handle.index())
            .map(H::new)
            .map_err(|number| self.error(number, Asked::Handle(handle.index())))
    }

    /// The new range: from the first live handle's new place to one past the last one's, 0..0 if
    /// none is live. Refused with 8 if the range ends past the map or starts after its end. The ends
    /// are plain places, since a range may end one past the last handle.
    pub fn adjust_range(&self, range: Range<u32>) -> Result<Range<u32>, AdjustError> {
        ffi::adjust_range(&self.words, &range)
            .map_err(|number| self.error(number, Asked::Range(range)))
    }

    fn error(&self, number: u32, asked: Asked) -> AdjustError {
        AdjustError {
            number,
            asked,
            length: self.len(),
        }
    }
}

/// What a map was asked for.
#[derive(Clone, Debug, PartialEq, Eq)]
pub enum Asked {
    /// One handle.
    Handle(u32),
    /// A range of handles.
    Range(Range<u32>),
}

/// Refusal 8 or 9 of a map.
#[derive(Clone, Debug, PartialEq, Eq)]
pub struct AdjustError {
    /// 8 or 9.
    pub number: u32,
    /// What the map was asked for.
    pub asked: Asked,
    /// How many words the map has.
    pub length: usize,
}

impl fmt::Display for AdjustError {
    fn fmt(&self, f: &mut fmt::Formatter<'_>) -> fmt::Result {
        let length = self.length;
        write!(f, "refusal {}: ", self.number)?;
        match &self.asked {
            Asked::Handle(handle) if self.number == 9 => write!(f, "handle {handle} was dropped"),
            Asked::Handle(handle) => {
                write!(f, "handle {handle} isn't below the map's length {length}")
            }
            Asked::Range(Range { start, end }) if start > end => {
                write!(f, "range {start}..{end} starts after its end")
            }
            Asked::Range(Range { start, end }) => {
                write!(
                    f,
                    "range {start}..{end} ends above the map's length {length}"
                )
            }
        }
    }
}

impl std::error::Error for AdjustError {}
