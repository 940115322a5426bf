//! A run: blocks of modules from each generator by turns, the first ones in any case, until the time is up or two part.

#[cfg(published)]
use crate::compare::as_held;
use crate::compare::{entries, judge, Difference};
#[cfg(published)]
use crate::expect::expect_check;
use crate::flat::*;
use crate::generate::damaged::{damage, damage_twice};
use crate::generate::good::{good, nearly, Size};
use crate::generate::large::{large, FIRST};
use crate::generate::small::Small;
use crate::generate::wild::wild;
use crate::generate::{spread, Foretold};
use crate::library::Library;
#[cfg(files)]
use crate::made_maps;
use crate::report::Stats;
use crate::rng::Rng;
use crate::shrink::shrink;
use crate::text::shown;
use std::sync::atomic::{AtomicBool, AtomicU64, AtomicUsize, Ordering};
use std::sync::Mutex;
use std::time::{Duration, Instant};

/// Where a block's modules come from; the places are those of the report.
#[derive(Clone, Copy, Debug, PartialEq, Eq)]
enum Generator {
    Small,
    Good,
    Nearly,
    Damaged,
    TwoFaults,
    Wild,
    Large,
    Maps,
}

use Generator::{Damaged, Good, Large, Maps, Nearly, TwoFaults, Wild};

/// The turns of the generators.
const TURNS: [Generator; 11] = [
    Generator::Small,
    Good,
    Damaged,
    Generator::Small,
    Wild,
    Nearly,
    Generator::Small,
    TwoFaults,
    Good,
    Maps,
    Large,
];
/// The blocks of the first rounds, which have what the limits ask for.
pub const FIRST_BLOCKS: u64 = (FIRST.len() * TURNS.len()) as u64;
const SMALL_TURNS: u64 = 3;
const SMALL_BLOCK: u64 = 256;

/// How long or how many blocks, from which numbers and on how many threads.
pub struct Plan {
    pub seconds: u64,
    pub blocks: u64,
    pub seed: u64,
    pub threads: usize,
}

/// A module on which two parted, or the words about a map.
pub struct Failure {
    pub flat: Flat,
    pub seed: u64,
    pub block: u64,
    pub difference: Difference,
}

/// What a run came to.
pub struct Summary {
    pub stats: Stats,
    pub failure: Option<Failure>,
    pub small: (usize, usize),
    pub blocks: u64,
}

struct Shared {
    next: AtomicU64,
    stop: AtomicBool,
    /// How many threads are at work.
    busy: AtomicUsize,
    stats: Mutex<Stats>,
    failure: Mutex<Option<Failure>>,
}

/// Runs until the time is up or a difference is found.
pub fn run(library: &dyn Library, plan: &Plan) -> Summary {
    let shared = Shared {
        next: AtomicU64::new(0),
        stop: AtomicBool::new(false),
        busy: AtomicUsize::new(plan.threads),
        stats: Mutex::new(Stats::default()),
        failure: Mutex::new(None),
    };
    std::thread::scope(|scope| {
        for _ in 0..plan.threads {
            scope.spawn(|| work(library, plan, &shared));
        }
        watch(plan, &shared);
    });
    let blocks = shared.next.load(Ordering::SeqCst).min(plan.blocks);
    let stats = shared.stats.into_inner().expect("no thread panicked");
    let failure = shared.failure.into_inner().expect("no thread panicked");
    Summary {
        small: Small::new().progress(stats.modules[0].sum()),
        stats,
        failure,
        blocks,
    }
}

/// Tells that a thread is done, also when it panics.
struct Done<'a>(&'a AtomicUsize);

impl Drop for Done<'_> {
    fn drop(&mut self) {
        self.0.fetch_sub(1, Ordering::SeqCst);
    }
}

/// Prints a line now and then, and stops the threads when the time is up and the first blocks are begun.
fn watch(plan: &Plan, shared: &Shared) {
    let begin = Instant::now();
    let mut told = begin;
    while shared.busy.load(Ordering::SeqCst) > 0 {
        std::thread::sleep(Duration::from_millis(10));
        let first = shared.next.load(Ordering::SeqCst) >= FIRST_BLOCKS;
        if first && begin.elapsed() >= Duration::from_secs(plan.seconds) {
            shared.stop.store(true, Ordering::SeqCst);
        }
        if told.elapsed() >= Duration::from_secs(5) {
            told = Instant::now();
            let stats = shared.stats.lock().expect("no thread panicked");
            let seconds = begin.elapsed().as_secs_f64();
            eprintln!(
                "{seconds:>7.0} s  {} modules, {} passes, {:.0} modules a second, no difference",
                stats.all_modules(),
                stats.all_passes(),
                stats.all_modules() as f64 / seconds
            );
        }
    }
}

/// Takes block after block.
fn work(library: &dyn Library, plan: &Plan, shared: &Shared) {
    let _done = Done(&shared.busy);
    let small = Small::new();
    while !shared.stop.load(Ordering::SeqCst) {
        let block = shared.next.fetch_add(1, Ordering::SeqCst);
        if block >= plan.blocks {
            break;
        }
        let mut stats = Stats::default();
        let result = run_block(library, &small, plan.seed, block, &mut stats);
        shared.stats.lock().expect("no thread panicked").add(&stats);
        if let Err(failure) = result {
            shared.stop.store(true, Ordering::SeqCst);
            let mut first = shared.failure.lock().expect("no thread panicked");
            if first.as_ref().is_none_or(|other| other.block > block) {
                *first = Some(*failure);
            }
        }
    }
}

type Verdict = Result<(), Box<Failure>>;

fn run_block(
    library: &dyn Library,
    small: &Small,
    seed: u64,
    block: u64,
    stats: &mut Stats,
) -> Verdict {
    let turn = (block % TURNS.len() as u64) as usize;
    let round = block / TURNS.len() as u64;
    let mut bench = Bench {
        library,
        block,
        generator: TURNS[turn],
        rng: Rng::part(seed, block),
        stats,
    };
    match TURNS[turn] {
        Generator::Small => {
            let before = TURNS[..turn]
                .iter()
                .filter(|kind| **kind == Generator::Small);
            let number = round * SMALL_TURNS + before.count() as u64;
            bench.small(small, number * SMALL_BLOCK)
        }
        Good => bench.good(round),
        Nearly => bench.nearly(),
        Damaged => bench.damaged(round),
        TwoFaults => bench.two_faults(round),
        Wild => bench.wild(),
        Large => bench.large(round),
        Maps => bench.maps(),
    }
}

/// The turn of the large modules that a block is, if it is one.
pub fn large_turn(block: u64) -> Option<u64> {
    let turns = TURNS.len() as u64;
    (TURNS[(block % turns) as usize] == Large).then_some(block / turns)
}

/// The first failure in these blocks, in this order.
pub fn first_failure(library: &dyn Library, seed: u64, blocks: &[u64]) -> Option<Failure> {
    let (small, mut stats) = (Small::new(), Stats::default());
    let failure = |block: &u64| run_block(library, &small, seed, *block, &mut stats).err();
    blocks.iter().find_map(failure).map(|failure| *failure)
}

/// Whether a library passes where another one failed.
pub fn passes(library: &dyn Library, seed: u64, failure: &Failure) -> bool {
    let mut stats = Stats::default();
    let Failure { flat, block, .. } = failure;
    if TURNS[(block % TURNS.len() as u64) as usize] == Maps {
        return run_block(library, &Small::new(), seed, *block, &mut stats).is_ok();
    }
    judge(library, flat, Foretold::Nothing, failure.seed, &mut stats).is_ok()
}

struct Bench<'a> {
    library: &'a dyn Library,
    block: u64,
    generator: Generator,
    rng: Rng,
    stats: &'a mut Stats,
}

impl Bench<'_> {
    /// Judges one module, with spans, and counts its verdict.
    fn judge(&mut self, flat: Flat, foretold: Foretold) -> Verdict {
        let seed = self.rng.next();
        let flat = spread(flat, seed);
        match judge(self.library, &flat, foretold, seed, self.stats) {
            Ok(expected) => {
                let number = expected.map_or(0, |refusal| refusal.number);
                self.stats.modules[self.generator as usize].0[number as usize] += 1;
                Ok(())
            }
            Err(difference) => Err(Box::new(Failure {
                flat,
                seed,
                block: self.block,
                difference,
            })),
        }
    }

    fn small(&mut self, small: &Small, from: u64) -> Verdict {
        for number in from..from + SMALL_BLOCK {
            if let Some(flat) = small.module(number) {
                self.judge(flat, Foretold::Nothing)?;
            }
        }
        Ok(())
    }

    /// Tiny and small modules, some of medium size; now and then a large one at the end.
    fn good(&mut self, round: u64) -> Verdict {
        for number in 0..64 {
            let size = match number {
                63 if round % 4 == 2 => Size::Large,
                62 | 63 => Size::Medium,
                _ if number % 3 == 0 => Size::Small,
                _ => Size::Tiny,
            };
            let flat = good(&mut self.rng, size);
            self.judge(flat, Foretold::Accepted)?;
        }
        Ok(())
    }

    fn nearly(&mut self) -> Verdict {
        for number in 0..64 {
            let size = match number {
                0 => Size::Medium,
                _ if number % 4 == 0 => Size::Small,
                _ => Size::Tiny,
            };
            let flat = nearly(&mut self.rng, size);
            self.judge(flat, Foretold::Nothing)?;
        }
        Ok(())
    }

    fn damaged(&mut self, round: u64) -> Verdict {
        for number in 0..FAULTY {
            let base = |rng: &mut Rng| base(rng, number, !round.is_multiple_of(2));
            if let Some((flat, sort, refusal)) = damage(&mut self.rng, base) {
                *self.stats.faults.entry(sort).or_default() += 1;
                self.judge(flat, Foretold::Refused(refusal))?;
            }
        }
        Ok(())
    }

    fn two_faults(&mut self, round: u64) -> Verdict {
        for number in 0..FAULTY {
            let base = base(&mut self.rng, number, round.is_multiple_of(2));
            if let Some((flat, refusal)) = damage_twice(base, &mut self.rng) {
                self.judge(flat, Foretold::Refused(refusal))?;
            }
        }
        Ok(())
    }

    fn wild(&mut self) -> Verdict {
        for _ in 0..128 {
            let flat = wild(&mut self.rng);
            self.judge(flat, Foretold::Nothing)?;
        }
        Ok(())
    }

    /// One module or a few, since they are large.
    fn large(&mut self, round: u64) -> Verdict {
        for (flat, foretold) in large(&mut self.rng, round) {
            self.judge(flat, foretold)?;
        }
        Ok(())
    }

    /// Made maps, rising as those of a pass and others.
    fn maps(&mut self) -> Verdict {
        for _ in 0..128 {
            self.one_map().map_err(|what| {
                Box::new(Failure {
                    flat: Flat::default(),
                    seed: 0,
                    block: self.block,
                    difference: Difference { keep: None, what },
                })
            })?;
            self.stats.modules[Maps as usize].0[0] += 1;
        }
        Ok(())
    }

    fn one_map(&mut self) -> Result<(), String> {
        let length = *self.rng.pick(&[0, 1, 2, 3, 5, 8, 40]);
        let used: Vec<bool> = (0..length).map(|_| self.rng.one_in(2)).collect();
        #[cfg(files)]
        made_maps::against_rust(self.library, &used, &mut self.rng, self.stats)?;
        let map: Vec<u32> = used
            .iter()
            .map(|used| match self.rng.below(4) {
                _ if !used => N,
                0 => N - 1,
                1 => self.rng.word(),
                _ => self.rng.below32(50),
            })
            .collect();
        for _ in 0..4 {
            entries(self.library, &map, &mut self.rng, self.stats)?;
        }
        Ok(())
    }
}

/// How many modules take faults in a block.
const FAULTY: usize = 96;

/// A module to take faults: the last of a block may be large, so that they stand at high places too.
fn base(rng: &mut Rng, number: usize, large: bool) -> Flat {
    let size = match FAULTY - number {
        1 if large => Size::Large,
        1 | 2 => Size::Medium,
        _ => *rng.pick(&[Size::Tiny, Size::Small]),
    };
    good(rng, size)
}

/// A failing module with more words than this is set aside for a tiny one, if one is found.
const MANY_WORDS: usize = 200;

/// A tiny module that fails too.
fn tiny_failure(library: &dyn Library, failure: &Failure) -> Option<(Flat, u64)> {
    let mut rng = Rng::new(failure.seed);
    let mut stats = Stats::default();
    (0..20_000).find_map(|number| {
        let (seed, size) = (rng.next(), Size::Tiny);
        let flat = match number % 4 {
            0 => good(&mut rng, size),
            1 => nearly(&mut rng, size),
            2 => wild(&mut rng),
            _ => damage(&mut rng, |rng| good(rng, size))?.0,
        };
        let flat = spread(flat, seed);
        let result = judge(library, &flat, Foretold::Nothing, seed, &mut stats);
        result.is_err().then_some((flat, seed))
    })
}

/// Shrinks the failing module and tells it as text.
pub fn failure_text(library: &dyn Library, failure: &Failure) -> String {
    let tiny = (failure.flat.words() > MANY_WORDS)
        .then(|| tiny_failure(library, failure))
        .flatten();
    let (flat, seed) = tiny.unwrap_or((failure.flat.clone(), failure.seed));
    let judged = |flat: &Flat| {
        let mut stats = Stats::default();
        judge(library, flat, Foretold::Nothing, seed, &mut stats).err()
    };
    let smallest = shrink(&flat, |flat| judged(flat).is_some());
    let difference = judged(&smallest).unwrap_or(failure.difference.clone());
    #[cfg(published)]
    let smallest = as_held(&smallest, expect_check(&smallest), seed);
    let flag = match difference.keep {
        Some(true) => "Yes",
        Some(false) => "No",
        None => "either",
    };
    let mut text = format!(
        "# {}\n# flag: {flag}\n# found in block {} as: {}\n",
        difference.what, failure.block, failure.difference.what
    );
    for (name, words) in AREAS.iter().zip(&smallest.areas) {
        let words: Vec<String> = words.iter().map(|word| shown(*word)).collect();
        text.push_str(&format!("raw {name} {}\n", words.join(" ")));
    }
    for (name, room) in AREAS.iter().zip(smallest.rooms) {
        text.push_str(&format!("room {name} {room}\n"));
    }
    text
}
