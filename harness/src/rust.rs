//! Runs the published compactor on a flat module and tells what came of it.

use crate::convert;
use crate::flat::{After, Flat};
use crate::rng::Rng;
use crate::roads::{self, Adjusted, Road};
use crate::types;
use naga::compact::{compact, KeepUnused};
use std::cell::{Cell, RefCell};
use std::panic::{self, AssertUnwindSafe};
use std::sync::Once;

/// What the published compactor did.
pub enum Outcome {
    /// It got through: what it left, and the ranges it adjusted.
    Through(Box<After>, Vec<Adjusted>),
    /// It panicked: where, and with which sort of message.
    Panicked(String),
    /// It got through and left what makes no sense.
    Garbled(String),
    /// It was not run, since it would not come back.
    Endless,
}

thread_local! {
    static QUIET: Cell<bool> = const { Cell::new(false) };
    static PANIC: RefCell<String> = const { RefCell::new(String::new()) };
}

static HUSHED: Once = Once::new();

/// Notes panics of the published code in silence and leaves all others as they are.
fn hush_panics() {
    let usual = panic::take_hook();
    panic::set_hook(Box::new(move |info| {
        if !QUIET.get() {
            return usual(info);
        }
        let place = info.location().map_or(String::from("?"), |place| {
            format!("{}:{}", short(place.file()), place.line())
        });
        let message = info.payload_as_str().unwrap_or("no text");
        PANIC.set(format!("{place} {}", sort(message)));
    }));
}

/// The last two parts of a path.
fn short(path: &str) -> String {
    let parts: Vec<&str> = path.rsplit('/').take(2).collect();
    parts.into_iter().rev().collect::<Vec<_>>().join("/")
}

/// A message without its numbers.
fn sort(message: &str) -> &str {
    let sorts = [
        ("called `Option::unwrap()`", "unwrap of None"),
        ("index out of bounds", "index out of bounds"),
        ("assertion", "assertion failed"),
    ];
    let found = sorts.iter().find(|pair| message.starts_with(pair.0));
    found.map_or(message, |pair| pair.1)
}

/// Runs something that may panic; the panic comes back as text.
pub fn caught<T>(work: impl FnOnce() -> T) -> Result<T, String> {
    HUSHED.call_once(hush_panics);
    QUIET.set(true);
    let result = panic::catch_unwind(AssertUnwindSafe(work));
    QUIET.set(false);
    result.map_err(|_| PANIC.take())
}

/// Compacts the module with its mentions on the given roads.
pub fn run(flat: &Flat, keep: bool, roads: &[Road], seed: u64) -> Outcome {
    if cfg!(feature = "crate") && types::endless(flat) {
        return Outcome::Endless;
    }
    let mut built = convert::build(flat, keep, roads, &mut Rng::new(seed));
    let mode = if keep {
        KeepUnused::Yes
    } else {
        KeepUnused::No
    };
    if let Err(panic) = caught(|| compact(&mut built.module, mode)) {
        return Outcome::Panicked(panic);
    }
    let after = convert::read(flat, &built);
    let adjusted = roads::adjusted(&built.module, &built.laid);
    match after.and_then(|after| Ok((after, adjusted?))) {
        Ok((after, adjusted)) => Outcome::Through(Box::new(after), adjusted),
        Err(why) => Outcome::Garbled(why),
    }
}
