//! The program `cadnohal`.
#![forbid(unsafe_code)]

use std::{env, process::ExitCode};

fn main() -> ExitCode {
    ExitCode::from(cadnohal_cli::run(env::args_os().skip(1)))
}
