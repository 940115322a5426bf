//! The static library of Cadnohal beside a plain Rust version of the same pass, and modules to time both on.

pub mod flat;
pub mod library;
pub mod modules;
pub mod plain;
pub mod random;
