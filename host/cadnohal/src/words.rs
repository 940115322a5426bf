//! Words to fields and back.
#![forbid(unsafe_code)]

use crate::{handle::Handle, kinds::N};

/// The word of a handle that may be absent.
pub(crate) fn word<H: Handle>(handle: Option<H>) -> u32 {
    handle.map_or(N, H::index)
}

/// The handle of a word, `None` for N.
pub(crate) fn handle<H: Handle>(word: u32) -> Option<H> {
    (word != N).then(|| H::new(word))
}

/// A flag, `None` for a word other than 0 and 1.
pub(crate) fn flag(word: u32) -> Option<bool> {
    (word <= 1).then_some(word == 1)
}

/// A length as a word; one too long for a word is N, which no rule accepts as a length.
pub(crate) fn count(length: usize) -> u32 {
    u32::try_from(length).unwrap_or(N)
}

/// The words of a run, `None` if it leaves the pool.
pub(crate) fn run(pool: &[u32], start: u32, count: u32) -> Option<&[u32]> {
    pool.get(start as usize..)?.get(..count as usize)
}

/// The handles of a run, `None` if it leaves the pool or holds N.
pub(crate) fn handles<H: Handle>(pool: &[u32], start: u32, count: u32) -> Option<Vec<H>> {
    run(pool, start, count)?
        .iter()
        .map(|&word| handle(word))
        .collect()
}
