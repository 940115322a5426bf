//! The check of modules that are refused near their end with 4 to 7: least nanoseconds a record, plain and library.

use bench::flat::{Answer, Module, BODIES, EXPRESSIONS, N, WIDTHS};
use bench::modules::{measured, Sort};
use bench::{library, plain};
use std::hint::black_box;
use std::time::Instant;

/// A kind with one expression.
const ACCESS_INDEX: u32 = 10;
const COMPOSE: u32 = 8;
const GLOBAL_VARIABLE: u32 = 13;

/// The module where all live, the last expression without a run spoilt so that the number refuses it.
fn refused(number: u32, n: usize) -> Module {
    let mut module = measured(Sort::All, true, n).module;
    let records = module.areas[EXPRESSIONS].chunks_mut(WIDTHS[EXPRESSIONS]);
    let (place, record) = records
        .enumerate()
        .rfind(|(_, record)| record[0] != COMPOSE)
        .expect("some have no run");
    record[1..BODIES[EXPRESSIONS]].fill(N);
    [record[0], record[1]] = match number {
        4 => [34, N],
        5 => [GLOBAL_VARIABLE, 0],
        6 => [ACCESS_INDEX, n as u32],
        _ => [ACCESS_INDEX, place as u32],
    };
    module
}

fn least(turns: usize, number: u32, mut check: impl FnMut() -> Answer) -> f64 {
    let times = (0..turns).map(|_| {
        let start = Instant::now();
        let answer = black_box(check());
        let time = start.elapsed().as_nanos() as f64;
        assert_eq!(answer.number, number);
        time
    });
    times.fold(f64::INFINITY, f64::min)
}

fn main() {
    for number in 4..=7 {
        for n in [4096, 16384, 65536] {
            let mut module = refused(number, n);
            let (areas, maps) = module.lend();
            let turns = 1_000_000 / n;
            let plain = least(turns, number, || plain::check(&areas, &maps));
            let library = least(turns, number, || library::check(&areas, &maps));
            let [plain, library] = [plain, library].map(|time| time / (5 * n) as f64);
            println!("{number} {n}: plain {plain:.1}, library {library:.1}");
        }
    }
}
