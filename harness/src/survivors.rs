//! Which old record each element is that a pass left.
//!
//! Spans do not tell it, since they are what is compared. An element tells it itself where it has room for its old
//! number. The others are known by what names them: a record that is known names elements by their old numbers in the
//! flat module and by their new ones in what was left, and so does a mention. A pass keeps nothing that nothing names.

use crate::flat::*;

/// The elements that are known so far.
pub struct Survivors<'a> {
    flat: &'a Flat,
    /// For each arena the new number of each old record, or N; and the other way round.
    maps: [Vec<u32>; 5],
    olds: [Vec<u32>; 5],
    /// Old records whose references have not been followed.
    open: Vec<(usize, usize)>,
}

/// What a record names. A `GlobalVariable` is refused with 5, but the Rust follows it.
fn references(flat: &Flat, area: usize, place: usize, list: &mut Vec<(usize, u32)>) {
    handles(flat, area, place, |to, handle| list.push((to, handle)));
    if let (EXPRESSIONS, [GLOBAL_VARIABLE, global, ..]) = (area, flat.record(area, place)) {
        list.push((GLOBALS, *global));
    }
}

impl<'a> Survivors<'a> {
    /// None is known of what a pass left.
    pub fn new(flat: &'a Flat, left: &Flat) -> Self {
        Survivors {
            flat,
            maps: std::array::from_fn(|area| vec![N; flat.records(area)]),
            olds: std::array::from_fn(|area| vec![N; left.records(area)]),
            open: Vec::new(),
        }
    }

    /// The new number of an old record, if it is known.
    pub fn new_number(&self, area: usize, old: usize) -> Option<u32> {
        let new = self.maps[area].get(old).copied();
        new.filter(|new| *new != N)
    }

    /// Notes that an old record stands at `new`, where it must stand alone.
    pub fn note(&mut self, area: usize, old: u32, new: u32) -> Result<(), String> {
        // Only a refused module names what is not there.
        let Some(to) = self.maps[area].get_mut(old as usize) else {
            return Ok(());
        };
        let wrong = || format!("{} {old}: stands at {new} and elsewhere", AREAS[area]);
        let from = self.olds[area].get_mut(new as usize).ok_or_else(wrong)?;
        if (*to, *from) == (N, N) {
            (*to, *from) = (new, old);
            self.open.push((area, old as usize));
        }
        match (*to, *from) == (new, old) {
            true => Ok(()),
            false => Err(wrong()),
        }
    }

    /// Follows the references of what is known, before the pass and in what it left.
    pub fn follow(&mut self, left: &Flat) -> Result<(), String> {
        let (mut before, mut after) = (Vec::new(), Vec::new());
        while let Some((area, old)) = self.open.pop() {
            references(self.flat, area, old, &mut before);
            references(left, area, self.maps[area][old] as usize, &mut after);
            let areas = before.iter().map(|pair| pair.0);
            if areas.ne(after.iter().map(|pair| pair.0)) {
                return Err(format!("{} {old}: of another shape", AREAS[area]));
            }
            for ((to, old), (_, new)) in before.drain(..).zip(after.drain(..)) {
                self.note(to, old, new)?;
            }
        }
        Ok(())
    }

    /// The maps of the pass. Each element that was left must be known; its tag is written.
    pub fn tagged(self, left: &mut Flat) -> Result<[Vec<u32>; 5], String> {
        for (area, olds) in self.olds.iter().enumerate() {
            for (new, (record, old)) in left.each_mut(area).zip(olds).enumerate() {
                if *old == N {
                    let name = AREAS[area];
                    return Err(format!("{name} at {new}: nothing tells its old number"));
                }
                record[BODIES[area] + TAG] = self.flat.tail(area, *old as usize)[TAG];
            }
        }
        Ok(self.maps)
    }
}
