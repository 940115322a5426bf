#![doc = include_str!("../README.md")]
#![deny(unsafe_code, missing_docs)]

mod compact;
mod expression;
#[allow(unsafe_code)]
mod ffi;
mod handle;
pub mod kinds;
mod map;
mod module;
mod records;
mod refusal;
mod tail;
mod words;

pub use compact::{Compacted, Counts, KeepUnused, Maps};
pub use expression::{Expression, ImageQuery, SampleLevel};
pub use ffi::{abi, ABI};
pub use handle::{
    ConstantHandle, Element, ExpressionHandle, GlobalHandle, Handle, OverrideHandle, TypeHandle,
};
pub use kinds::{Area, N};
pub use map::{AdjustError, Asked, HandleMap};
pub use module::Module;
pub use records::{Constant, Global, Override, Type, TypeInner};
pub use refusal::Refusal;
pub use tail::Span;
