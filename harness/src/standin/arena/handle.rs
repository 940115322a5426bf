//! A number of an element in an arena of `T`.

use core::cmp::Ordering;
use core::fmt;
use core::hash::{Hash, Hasher};
use core::marker::PhantomData;

pub type Index = crate::non_max_u32::NonMaxU32;

pub struct Handle<T> {
    index: Index,
    of: PhantomData<T>,
}

impl<T> Handle<T> {
    pub const fn new(index: Index) -> Self {
        Handle {
            index,
            of: PhantomData,
        }
    }

    /// The handle of the element at this place.
    pub fn from_usize(place: usize) -> Self {
        let word = u32::try_from(place).expect("a place is a 32-bit word");
        Self::new(Index::new(word).expect("a place is below the largest word"))
    }

    pub const fn index(self) -> usize {
        self.index.get() as usize
    }
}

impl<T> Clone for Handle<T> {
    fn clone(&self) -> Self {
        *self
    }
}

impl<T> Copy for Handle<T> {}

impl<T> PartialEq for Handle<T> {
    fn eq(&self, other: &Self) -> bool {
        self.index == other.index
    }
}

impl<T> Eq for Handle<T> {}

impl<T> PartialOrd for Handle<T> {
    fn partial_cmp(&self, other: &Self) -> Option<Ordering> {
        Some(self.cmp(other))
    }
}

impl<T> Ord for Handle<T> {
    fn cmp(&self, other: &Self) -> Ordering {
        self.index.cmp(&other.index)
    }
}

impl<T> Hash for Handle<T> {
    fn hash<H: Hasher>(&self, state: &mut H) {
        self.index.hash(state);
    }
}

impl<T> fmt::Debug for Handle<T> {
    fn fmt(&self, f: &mut fmt::Formatter) -> fmt::Result {
        write!(f, "[{}]", self.index)
    }
}

/// A handle that an arena doesn't have.
#[derive(Clone, Debug)]
pub struct BadHandle {
    pub index: usize,
}

impl BadHandle {
    pub fn new<T>(handle: Handle<T>) -> Self {
        BadHandle {
            index: handle.index(),
        }
    }
}
