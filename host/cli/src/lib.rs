//! The command line `cadnohal`: reads modules as text, compacts and checks them with the library
//! `cadnohal`, and says why an element is kept.
#![forbid(unsafe_code)]

pub mod args;
mod commands;
pub mod failure;
pub mod format;
pub mod graph;
pub mod references;
pub mod why;

use failure::Failure;
use std::{
    ffi::OsString,
    io::{self, Write},
};

/// Does what the arguments after the program's name ask for and answers the exit status.
pub fn run(arguments: impl IntoIterator<Item = OsString>) -> u8 {
    let done = linked()
        .and_then(|()| args::parse(arguments))
        .and_then(commands::execute)
        .and_then(|text| put(&text));
    match done {
        Ok(()) => 0,
        Err(failure) => {
            // Nobody is left to be told if standard error is closed.
            let _ = writeln!(io::stderr(), "{failure}");
            failure.status()
        }
    }
}

/// Whether the library that was linked is the one that this program is built for.
fn linked() -> Result<(), Failure> {
    match cadnohal::abi() {
        cadnohal::ABI => Ok(()),
        abi => Err(Failure::Internal(format!(
            "cadnohal: the library's ABI is {abi}, this program's is {}",
            cadnohal::ABI
        ))),
    }
}

/// Writes to standard output. A reader that has gone away has had enough, which is no failure.
fn put(text: &str) -> Result<(), Failure> {
    let mut out = io::stdout().lock();
    match out.write_all(text.as_bytes()).and_then(|()| out.flush()) {
        Err(error) if error.kind() != io::ErrorKind::BrokenPipe => Err(Failure::Unusable(format!(
            "cadnohal: can't write to standard output: {error}"
        ))),
        _ => Ok(()),
    }
}
