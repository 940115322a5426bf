//! Maps of the published Rust, asked directly, against the library.

use crate::flat::N;
use crate::library::Library;
use crate::report::{Counted, Stats};
use crate::rng::Rng;
use crate::rust::caught;
use naga::map_alone::MapAlone;

/// Asks the library and the published map about handles and ranges in and out of range. Where the
/// published map panics, the library must refuse; where only the library refuses, document 01 says so.
pub fn against_rust(
    library: &dyn Library,
    used: &[bool],
    rng: &mut Rng,
    stats: &mut Stats,
) -> Result<(), String> {
    let published = MapAlone::new(used);
    let map: Vec<u32> = (0..used.len())
        .map(|handle| published.lookup(handle as u32).unwrap_or(N))
        .collect();
    let length = map.len() as u32;
    for _ in 0..4 {
        let handle = rng.below32(map.len() + 3);
        let wanted = published.lookup(handle).unwrap_or(N);
        same(
            &map,
            "lookup",
            &[handle],
            &[library.lookup(&map, handle)],
            &[wanted],
        )?;
        let wanted = match caught(|| published.adjust(handle)) {
            Ok(new) => [0, new],
            Err(_) if handle >= length => [8, N],
            Err(_) => [9, N],
        };
        same(
            &map,
            "adjust",
            &[handle],
            &library.adjust(&map, handle),
            &wanted,
        )?;
        let (start, end) = (rng.below32(map.len() + 3), rng.below32(map.len() + 3));
        let added = start > end || end > length;
        let wanted = match caught(|| published.adjust_range(start, end)) {
            Ok(ends) if added => {
                if ends != (0, 0) {
                    return Err(format!(
                        "the published map gives {ends:?} for {start}..{end}"
                    ));
                }
                [8, N, N]
            }
            Ok(ends) => [0, ends.0, ends.1],
            Err(_) => [8, N, N],
        };
        same(
            &map,
            "range",
            &[start, end],
            &library.adjust_range(&map, start, end),
            &wanted,
        )?;
        stats.count(Counted::Entries, 3);
        stats.count(Counted::EntriesAgainstRust, 3);
    }
    Ok(())
}

fn same(map: &[u32], who: &str, asked: &[u32], got: &[u32], wanted: &[u32]) -> Result<(), String> {
    if got == wanted {
        return Ok(());
    }
    Err(format!(
        "{who} of {asked:?} on the published map {map:?}: {got:?} and not {wanted:?}"
    ))
}
