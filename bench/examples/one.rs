//! Turns of one side alone, for a profiler or an emulator that counts instructions. `types` has types alone.

use bench::flat::{Answer, Module};
use bench::modules::{measured, types_alone, Sort};
use bench::{library, plain};
use std::hint::black_box;

const USAGE: &str = "one plain|library none|half|all|types no|yes|check [TURNS [RECORDS]]";

fn turn(side: &str, pass: &str, work: &mut Module) -> Answer {
    let (areas, maps) = work.lend();
    match (side, pass) {
        ("plain", "check") => plain::check(&areas, &maps),
        ("plain", _) => plain::compact(areas, maps, pass == "yes"),
        (_, "check") => library::check(&areas, &maps),
        _ => library::compact(areas, maps, pass == "yes"),
    }
}

fn main() {
    let words: Vec<String> = std::env::args().skip(1).collect();
    let [side, sort, pass, ..] = &words[..] else {
        panic!("{USAGE}");
    };
    let turns = words.get(3).map_or(1, |word| word.parse().expect("turns"));
    let n = words
        .get(4)
        .map_or(4096, |word| word.parse().expect("records"));
    let module = match sort.as_str() {
        "none" => measured(Sort::None, pass != "no", n),
        "half" => measured(Sort::Half, pass != "no", n),
        "all" => measured(Sort::All, pass != "no", n),
        "types" => types_alone(n),
        _ => panic!("{USAGE}"),
    }
    .module;
    let mut work = module.clone();
    for _ in 0..turns {
        work.restore(&module);
        black_box(turn(side, pass, black_box(&mut work)));
    }
}
