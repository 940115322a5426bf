//! The published compactor of naga 30.0.1, unchanged, over stand-ins for what is not in its text.
//!
//! The published files speak of their crate as `crate::`, so they and the stand-ins are a library target
//! of their own. Without the published files this target is empty.

#[cfg(published)]
extern crate alloc;
// The published text names these two crates; here they are this one.
#[cfg(published)]
extern crate self as bit_set;
#[cfg(published)]
extern crate self as log;

#[cfg(published)]
include!(concat!(env!("OUT_DIR"), "/published.rs"));

#[cfg(published)]
#[path = "standin/root.rs"]
mod root;

#[cfg(published)]
pub use root::*;

/// Takes a message apart for the compiler and writes nothing.
#[macro_export]
macro_rules! trace {
    ($($message:tt)*) => {
        if false {
            let _ = format_args!($($message)*);
        }
    };
}
