//! What a run counts, and the table it prints.

use crate::flat::{COMPONENTS, LIMITS, MEMBERS, TYPES};
use std::collections::BTreeMap;

pub const GENERATORS: [&str; 8] = [
    "small",
    "good",
    "nearly",
    "damaged",
    "two faults",
    "wild",
    "large",
    "maps",
];

/// The last generator makes maps and no modules.
const MADE_MAPS: usize = 7;

/// Some numbers that are added up place by place.
#[derive(Clone)]
pub struct Tally<const SIZE: usize>(pub [u64; SIZE]);

impl<const SIZE: usize> Default for Tally<SIZE> {
    fn default() -> Self {
        Tally([0; SIZE])
    }
}

impl<const SIZE: usize> Tally<SIZE> {
    fn add(&mut self, other: &Self) {
        for (mine, theirs) in self.0.iter_mut().zip(other.0) {
            *mine += theirs;
        }
    }

    pub fn sum(&self) -> u64 {
        self.0.iter().sum()
    }
}

/// What `Stats::numbers` counts.
#[derive(Clone, Copy)]
pub enum Counted {
    /// Passes held against the published Rust.
    AgainstRust,
    /// Passes held against the closure.
    AgainstClosure,
    SecondPasses,
    /// Compared: words of areas, words of maps, mentions, counts.
    Words,
    MapWords,
    Mentions,
    Counts,
    /// Records of areas 0 to 4 that accepted passes kept and dropped.
    Kept,
    Dropped,
    /// Answers of lookup, adjust and range; and those held against the published map.
    Entries,
    EntriesAgainstRust,
    /// Ranges of function bodies that the published Rust adjusted.
    Emits,
}

/// Counts of a run. Those of several threads are added up.
#[derive(Clone, Default)]
pub struct Stats {
    /// Modules, for each generator and verdict (0 is accepted); for `maps`, maps at 0.
    pub modules: [Tally<8>; 8],
    /// Passes, for each flag: accepted, refused.
    pub passes: [Tally<2>; 2],
    numbers: Tally<12>,
    /// Mentions by road.
    pub roads: Tally<25>,
    /// Kept and dropped types and expressions of accepted passes, by kind.
    pub type_kinds: [Tally<4>; 2],
    pub expression_kinds: [Tally<34>; 2],
    /// Modules with one fault, by its sort.
    pub faults: BTreeMap<&'static str, u64>,
    /// What the published Rust did with modules that are refused here.
    pub refused: BTreeMap<(u32, String), u64>,
    /// The most records of an accepted module, for each area.
    pub longest: [usize; 8],
    /// The most records that an accepted pass kept, for each flag and area.
    most_kept: [[u32; 7]; 2],
    /// Accepted passes that kept all that an arena can have: those that did not keep all that both pools
    /// can have, and those that did.
    kept_full: [Tally<5>; 2],
}

fn add_each<const SIZE: usize>(mine: &mut [Tally<SIZE>], theirs: &[Tally<SIZE>]) {
    for (mine, theirs) in mine.iter_mut().zip(theirs) {
        mine.add(theirs);
    }
}

fn raise<T: Copy + Ord>(mine: &mut [T], theirs: &[T]) {
    for (mine, theirs) in mine.iter_mut().zip(theirs) {
        *mine = (*mine).max(*theirs);
    }
}

fn add_map<K: Clone + Ord>(mine: &mut BTreeMap<K, u64>, theirs: &BTreeMap<K, u64>) {
    for (key, count) in theirs {
        *mine.entry(key.clone()).or_default() += count;
    }
}

impl Stats {
    pub fn count(&mut self, what: Counted, number: usize) {
        self.numbers.0[what as usize] += number as u64;
    }

    fn number(&self, what: Counted) -> u64 {
        self.numbers.0[what as usize]
    }

    pub fn add(&mut self, other: &Stats) {
        add_each(&mut self.modules, &other.modules);
        add_each(&mut self.passes, &other.passes);
        add_each(&mut self.type_kinds, &other.type_kinds);
        add_each(&mut self.expression_kinds, &other.expression_kinds);
        self.numbers.add(&other.numbers);
        self.roads.add(&other.roads);
        add_map(&mut self.faults, &other.faults);
        add_map(&mut self.refused, &other.refused);
        raise(&mut self.longest, &other.longest);
        for (mine, theirs) in self.most_kept.iter_mut().zip(&other.most_kept) {
            raise(mine, theirs);
        }
        add_each(&mut self.kept_full, &other.kept_full);
    }

    /// Notes how much an accepted pass kept.
    pub fn kept(&mut self, keep: bool, counts: &[u32; 7]) {
        raise(&mut self.most_kept[usize::from(keep)], counts);
        let full = |area: usize| counts[area] as usize == LIMITS[area];
        let pools = usize::from(full(MEMBERS) && full(COMPONENTS));
        for area in 0..5 {
            self.kept_full[pools].0[area] += u64::from(full(area));
        }
    }

    pub fn all_modules(&self) -> u64 {
        self.modules[..MADE_MAPS].iter().map(Tally::sum).sum()
    }

    pub fn made_maps(&self) -> u64 {
        self.modules[MADE_MAPS].sum()
    }

    pub fn all_passes(&self) -> u64 {
        self.passes.iter().map(Tally::sum).sum()
    }

    /// The summary table.
    pub fn table(&self, roads: &[&str]) -> String {
        let mut lines = self.module_lines();
        lines.extend(self.pass_lines());
        lines.push(kinds("type", &self.type_kinds));
        lines.push(kinds("expression", &self.expression_kinds));
        lines.push(String::from("single faults by sort:"));
        for (fault, count) in &self.faults {
            lines.push(format!("  {count:>12} {fault}"));
        }
        if !roads.is_empty() {
            lines.push(String::from("mentions by road:"));
        }
        for (road, count) in roads.iter().zip(self.roads.0) {
            lines.push(format!("  {count:>12} {road}"));
        }
        if !self.refused.is_empty() {
            lines.push(String::from(
                "what the published Rust did with modules that are refused here:",
            ));
        }
        for ((number, what), count) in &self.refused {
            lines.push(format!("  {count:>12} {number}: {what}"));
        }
        lines.join("\n") + "\n"
    }

    /// Modules by generator and verdict.
    fn module_lines(&self) -> Vec<String> {
        let row = |name: &str, cells: [String; 8]| {
            let cells: Vec<String> = cells.iter().map(|cell| format!("{cell:>10}")).collect();
            format!("{name:<11}{}", cells.join(" "))
        };
        let heads = ["accepted", "1", "2", "3", "4", "5", "6", "7"].map(String::from);
        let mut lines = vec![row("generator", heads)];
        for (name, counts) in GENERATORS[..MADE_MAPS].iter().zip(&self.modules) {
            lines.push(row(name, counts.0.map(|count| count.to_string())));
        }
        lines
    }

    /// Passes and what was compared.
    fn pass_lines(&self) -> Vec<String> {
        let mut lines = vec![format!("modules: {}", self.all_modules())];
        for (flag, row) in ["No", "Yes"].iter().zip(&self.passes) {
            let [accepted, refused] = row.0;
            lines.push(format!(
                "passes with {flag}: {accepted} accepted, {refused} refused"
            ));
        }
        lines.push(format!(
            "held against the published Rust: {} passes; against the closure: {}; second passes: {}",
            self.number(Counted::AgainstRust),
            self.number(Counted::AgainstClosure),
            self.number(Counted::SecondPasses)
        ));
        lines.push(format!(
            "compared: {} words of areas, {} words of maps, {} mentions, {} counts; {} records kept, {} dropped",
            self.number(Counted::Words),
            self.number(Counted::MapWords),
            self.number(Counted::Mentions),
            self.number(Counted::Counts),
            self.number(Counted::Kept),
            self.number(Counted::Dropped)
        ));
        lines.push(format!(
            "map entries: {} answers, on the maps of passes and on {} made maps; {} of them held against the published map; {} ranges of function bodies",
            self.number(Counted::Entries),
            self.made_maps(),
            self.number(Counted::EntriesAgainstRust),
            self.number(Counted::Emits)
        ));
        lines.push(format!(
            "most records of an accepted module, areas 0 to 7: {:?}",
            self.longest
        ));
        let [no, yes] = self.most_kept;
        lines.push(format!(
            "most records that one pass kept, areas 0 to 6: with No {no:?}, with Yes {yes:?}"
        ));
        let [without, with] = &self.kept_full;
        lines.push(format!(
            "passes that kept {} records of an arena, areas 0 to 4: {:?}; and {} words of each pool: {:?}",
            LIMITS[TYPES], without.0, LIMITS[MEMBERS], with.0
        ));
        lines
    }
}

/// Kept and dropped records by kind.
fn kinds<const SIZE: usize>(name: &str, [kept, dropped]: &[Tally<SIZE>; 2]) -> String {
    let cells: Vec<String> = (0..SIZE)
        .map(|kind| format!("{kind}: {}/{}", kept.0[kind], dropped.0[kind]))
        .collect();
    format!(
        "{name} kinds, kept/dropped by accepted passes: {}",
        cells.join(", ")
    )
}
