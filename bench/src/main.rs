//! Times the static library against the plain version and, with the harness's program, the published compactor.

mod clock;
mod published;
mod report;
mod timing;

use bench::flat::{Module, LIMITS, TYPES};
use bench::modules::Sort;
use report::Row;
use std::path::{Path, PathBuf};
use std::process::ExitCode;
use timing::{Pass, Spread, Turns};

const USAGE: &str = "\
bench [--turns T] [--records N] [--csv] [--harness PATH]
    T turns of each (1000), fewer of modules above 4096 records by as much as they are larger;
    N records in each arena, 64 to 65536 in steps of 8 (4096, 16384 and 65536 in turn);
    CSV instead of tables; the harness's program for the published compactor";

/// Into how many rounds the turns are split.
const ROUNDS: usize = 10;

/// The most records in each arena that get all the turns.
const SMALL: usize = 4096;

struct Options {
    /// Of modules up to [`SMALL`].
    turns: usize,
    /// Records in each arena.
    sizes: Vec<usize>,
    csv: bool,
    harness: Option<PathBuf>,
}

impl Options {
    /// The turns of modules of a size: a larger one gets fewer, so that each size takes about as long.
    fn turns_of(&self, n: usize) -> usize {
        (self.turns * SMALL / n.max(SMALL)).max(1)
    }
}

fn options(mut words: impl Iterator<Item = String>) -> Option<Options> {
    let mut options = Options {
        turns: 1000,
        sizes: vec![SMALL, 4 * SMALL, 16 * SMALL],
        csv: false,
        harness: None,
    };
    while let Some(word) = words.next() {
        match word.as_str() {
            "--turns" => options.turns = words.next()?.parse().ok().filter(|turns| *turns > 0)?,
            "--records" => options.sizes = vec![size(&words.next()?)?],
            "--csv" => options.csv = true,
            "--harness" => options.harness = Some(words.next()?.into()),
            _ => return None,
        }
    }
    Some(options)
}

/// A size that the modules can have.
fn size(word: &str) -> Option<usize> {
    let n: usize = word.parse().ok()?;
    ((64..=LIMITS[TYPES]).contains(&n) && n.is_multiple_of(8)).then_some(n)
}

/// A row that is being measured.
struct Case {
    sort: Sort,
    pass: Pass,
    module: Module,
    turns: Turns,
    published: Vec<Spread>,
}

impl Case {
    fn new(n: usize, sort: Sort, pass: Pass) -> Case {
        Case {
            sort,
            pass,
            module: pass.module(sort, n),
            turns: Turns::default(),
            published: Vec::new(),
        }
    }

    fn add(&mut self, turns: usize, harness: Option<&Path>) -> Result<(), String> {
        self.turns.add(self.pass, &self.module, turns);
        if let Some(harness) = harness {
            let published = published::time(harness, self.pass, &self.module, turns)?;
            self.published.extend(published);
        }
        Ok(())
    }

    fn finish(self, n: usize) -> Row {
        Row {
            n,
            sort: self.sort,
            pass: self.pass,
            times: self.turns.times(),
            published: Spread::middle(&self.published),
        }
    }
}

/// The rows of one size, their turns spread over rounds so that a disturbance hits all rows alike.
fn measure(options: &Options, n: usize) -> Result<Vec<Row>, String> {
    let sorts = [Sort::None, Sort::Half, Sort::All];
    let cases = sorts.map(|sort| Pass::ALL.map(|pass| Case::new(n, sort, pass)));
    let mut cases: Vec<Case> = cases.into_iter().flatten().collect();
    let turns = options.turns_of(n);
    let rounds = ROUNDS.min(turns);
    for round in 0..rounds {
        for case in &mut cases {
            let share = (turns + round) / rounds;
            case.add(share, options.harness.as_deref())?;
        }
    }
    Ok(cases.into_iter().map(|case| case.finish(n)).collect())
}

fn run(options: &Options) -> Result<(), String> {
    let mut rows = Vec::new();
    for &n in &options.sizes {
        rows.extend(measure(options, n)?);
    }
    if options.csv {
        print!("{}", report::csv(&rows));
        return Ok(());
    }
    let most = options.sizes.iter().max().copied().unwrap_or(0);
    let largest = rows.iter().filter(|row| row.n == most);
    let turns = options.turns_of(most);
    println!("{most} records in each arena, {turns} turns");
    print!("{}", report::table(largest));
    if options.sizes.len() > 1 {
        println!("\nnanoseconds a record: plain, library, published (library/plain)");
        print!("{}", report::linearity(&options.sizes, &rows));
    }
    Ok(())
}

fn main() -> ExitCode {
    let Some(options) = options(std::env::args().skip(1)) else {
        eprintln!("{USAGE}");
        return ExitCode::from(2);
    };
    match run(&options) {
        Ok(()) => ExitCode::SUCCESS,
        Err(why) => {
            eprintln!("{why}");
            ExitCode::FAILURE
        }
    }
}
