//! Runs the published compactor of naga 30.0.1, unchanged, against the static library of Cadnohal.

#[cfg(published)]
mod cases;
mod closure;
mod command;
mod compare;
#[cfg(published)]
mod convert;
mod expect;
#[cfg(library)]
mod ffi;
mod flat;
mod generate;
#[cfg(published)]
mod handles;
#[cfg(feature = "crate")]
mod host;
mod library;
#[cfg(files)]
mod made_maps;
mod maps;
mod mutants;
#[cfg(published)]
mod places;
#[cfg(published)]
mod record;
mod replay;
mod report;
mod rng;
#[cfg(published)]
mod roads;
mod run;
#[cfg(published)]
mod rust;
#[cfg(feature = "crate")]
mod shaders;
mod shrink;
#[cfg(published)]
mod survivors;
#[cfg(test)]
mod tests;
mod text;
#[cfg(published)]
mod time;
#[cfg(published)]
mod types;
#[cfg(published)]
mod uses;

use std::process::ExitCode;

fn main() -> ExitCode {
    command::main(std::env::args().skip(1).collect())
}
