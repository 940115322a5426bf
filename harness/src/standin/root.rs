//! What the published text expects at the root of its crate.

#[path = "bits.rs"]
mod bits;
#[path = "index_map.rs"]
mod index_map;
#[path = "ir.rs"]
pub mod ir;
#[path = "map_alone.rs"]
pub mod map_alone;
#[path = "span.rs"]
mod span;
#[cfg(test)]
#[path = "valid.rs"]
pub mod valid;

pub use crate::arena::{Arena, Handle, Range, UniqueArena};
pub use bits::{BitSet, BitVec};
pub use index_map::FastIndexMap;
pub use ir::*;
pub use span::Span;

/// Names given to a function's own expressions.
pub type NamedExpressions = FastIndexMap<Handle<Expression>, String>;
