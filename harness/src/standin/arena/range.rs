//! A run of handles, from a first to an end that is not in it.

use super::{Arena, Handle};
use core::fmt;
use core::marker::PhantomData;
use core::ops;

pub struct Range<T> {
    pub(super) inner: ops::Range<u32>,
    of: PhantomData<T>,
}

impl<T> Range<T> {
    /// The run with these two ends, whatever they are.
    pub const fn from_ends(inner: ops::Range<u32>) -> Self {
        Range {
            inner,
            of: PhantomData,
        }
    }

    /// The run from a first handle to a last one, whichever comes first.
    pub fn new_from_bounds(first: Handle<T>, last: Handle<T>) -> Self {
        Self::from_ends(first.index() as u32..last.index() as u32 + 1)
    }

    /// The run with these two ends, which must lie in the arena.
    pub fn from_index_range(inner: ops::Range<u32>, arena: &Arena<T>) -> Self {
        let range = Self::from_ends(inner);
        assert!(
            arena.check_contains_range(&range).is_ok(),
            "the range does not lie in the arena"
        );
        range
    }

    /// All handles of an arena of this size.
    pub fn full_range_from_size(size: usize) -> Self {
        Self::from_ends(0..u32::try_from(size).expect("a size is a 32-bit word"))
    }

    pub fn index_range(&self) -> ops::Range<u32> {
        self.inner.clone()
    }
}

impl<T> Clone for Range<T> {
    fn clone(&self) -> Self {
        Self::from_ends(self.inner.clone())
    }
}

impl<T> PartialEq for Range<T> {
    fn eq(&self, other: &Self) -> bool {
        self.inner == other.inner
    }
}

impl<T> fmt::Debug for Range<T> {
    fn fmt(&self, f: &mut fmt::Formatter) -> fmt::Result {
        write!(f, "{:?}", self.inner)
    }
}

impl<T> Iterator for Range<T> {
    type Item = Handle<T>;

    fn next(&mut self) -> Option<Handle<T>> {
        self.inner
            .next()
            .map(|place| Handle::from_usize(place as usize))
    }
}

/// A range that an arena doesn't have.
#[derive(Clone, Debug)]
pub struct BadRangeError {
    pub ends: ops::Range<u32>,
}

impl BadRangeError {
    pub fn new<T>(range: Range<T>) -> Self {
        BadRangeError { ends: range.inner }
    }
}
