//! Turns of the plain version and the library, one after the other, each on freshly restored buffers.

use crate::clock;
use bench::flat::{Answer, Module};
use bench::modules::{measured, Sort};
use bench::{library, plain};
use std::hint::black_box;

/// What is timed.
#[derive(Clone, Copy, PartialEq, Eq)]
pub enum Pass {
    Compact { keep_unused: bool },
    Check,
}

impl Pass {
    pub const ALL: [Pass; 3] = [
        Pass::Compact { keep_unused: false },
        Pass::Compact { keep_unused: true },
        Pass::Check,
    ];

    pub fn name(self) -> &'static str {
        match self {
            Pass::Compact { keep_unused: false } => "No",
            Pass::Compact { keep_unused: true } => "Yes",
            Pass::Check => "check",
        }
    }

    /// The module that is measured; the check is measured on the one for Yes.
    pub fn module(self, sort: Sort, n: usize) -> Module {
        let keep_unused = self != Pass::Compact { keep_unused: false };
        let made = measured(sort, keep_unused, n);
        let kept = match self {
            Pass::Check => [0; 7],
            Pass::Compact { .. } => made.kept,
        };
        self.assert_same(&made.module, kept);
        made.module
    }

    /// Both keep these counts and leave the same words.
    fn assert_same(self, module: &Module, kept: [u32; 7]) {
        let expected = Answer {
            kept,
            ..Answer::default()
        };
        let (mut by_plain, mut by_library) = (module.clone(), module.clone());
        assert_eq!(self.plain(&mut by_plain), expected);
        assert_eq!(self.library(&mut by_library), expected);
        assert!(by_plain == by_library);
    }

    fn plain(self, module: &mut Module) -> Answer {
        let (areas, maps) = module.lend();
        match self {
            Pass::Compact { keep_unused } => plain::compact(areas, maps, keep_unused),
            Pass::Check => plain::check(&areas, &maps),
        }
    }

    fn library(self, module: &mut Module) -> Answer {
        let (areas, maps) = module.lend();
        match self {
            Pass::Compact { keep_unused } => library::compact(areas, maps, keep_unused),
            Pass::Check => library::check(&areas, &maps),
        }
    }
}

/// The nanoseconds, or the ratios, of many turns.
#[derive(Clone, Copy)]
pub struct Spread {
    pub least: f64,
    pub low: f64,
    pub median: f64,
    pub high: f64,
}

impl Spread {
    fn of(mut turns: Vec<f64>) -> Spread {
        turns.sort_by(f64::total_cmp);
        let at = |quarter: usize| turns[(turns.len() - 1) * quarter / 4];
        Spread {
            least: at(0),
            low: at(1),
            median: at(2),
            high: at(3),
        }
    }

    /// Of several spreads the middle median and the middle quartiles.
    pub fn middle(spreads: &[Spread]) -> Option<Spread> {
        let middle = |part: fn(&Spread) -> f64| Spread::of(spreads.iter().map(part).collect());
        (!spreads.is_empty()).then(|| Spread {
            least: f64::NAN,
            low: middle(|spread| spread.low).median,
            median: middle(|spread| spread.median).median,
            high: middle(|spread| spread.high).median,
        })
    }
}

pub struct Times {
    pub plain: Spread,
    pub library: Spread,
    pub copy: Spread,
    /// Library by plain, turn by turn.
    pub ratio: Spread,
}

fn nanoseconds<T>(work: impl FnOnce() -> T) -> f64 {
    let start = clock::nanoseconds();
    black_box(work());
    clock::nanoseconds() - start
}

/// The turns of one row so far.
#[derive(Default)]
pub struct Turns {
    plain: Vec<f64>,
    library: Vec<f64>,
    copy: Vec<f64>,
}

impl Turns {
    /// Plain, library, plain, library; before each the buffers are restored, which is timed apart.
    pub fn add(&mut self, pass: Pass, module: &Module, count: usize) {
        let mut work = module.clone();
        for _ in 0..count {
            self.copy.push(nanoseconds(|| work.restore(module)));
            self.plain
                .push(nanoseconds(|| pass.plain(black_box(&mut work))));
            self.copy.push(nanoseconds(|| work.restore(module)));
            self.library
                .push(nanoseconds(|| pass.library(black_box(&mut work))));
        }
    }

    pub fn times(self) -> Times {
        let turns = self.library.iter().zip(&self.plain);
        let ratios = turns.map(|(library, plain)| library / plain);
        Times {
            ratio: Spread::of(ratios.collect()),
            plain: Spread::of(self.plain),
            library: Spread::of(self.library),
            copy: Spread::of(self.copy),
        }
    }
}
