//! The command line.

use crate::library::{Library, Restated};
use crate::{mutants, replay, run};
use std::path::{Path, PathBuf};
use std::process::ExitCode;

const USAGE: &str = "\
harness run [--seconds N | --blocks B] [--seed S] [--threads T] [--library linked|restated] [--over files|crate|nothing]
    compares until the time is up or the blocks are done; status 1 and harness-failure.txt on a difference,
    status 3 if nothing parted but the published Rust was not there and `--over nothing` did not ask for that
harness record [--seed S] [--to FOLDER]
    writes answers-1.stdin, answers-1.stdout and so on: what the published Rust answers
harness time --module FILE --flag yes|no [--turns T]
    times the published Rust on one module of lines `raw AREA words`: median, lower and upper quartile in ns
harness shaders [--library linked|restated] [FOLDER ...]
    over the crate naga only: shaders compacted by naga and by the library; without folders, those in harness/shaders
harness mutants [--library linked|restated]
    runs wrong libraries, each like that one but for one thing, until each is caught; status 1 if one is not
harness replay [--library linked|restated] FILE.stdin ...
    holds the library to recorded answers; without files, to those in crates/cases/answers";

const NO_SOURCES: &str =
    "the published sources are not here (NAGA_SRC); compared with recorded answers only";

/// The status of a run in which nothing parted though the published Rust had no part in it.
const WITHOUT_RUST: u8 = 3;

/// The words of the command line after the command.
struct Arguments {
    words: Vec<String>,
}

impl Arguments {
    /// The word after an option.
    fn option(&self, name: &str) -> Option<&str> {
        let at = self.words.iter().position(|word| word == name)?;
        self.words.get(at + 1).map(String::as_str)
    }

    fn number(&self, name: &str, usual: u64) -> Result<u64, String> {
        let no_number = |word| format!("{name} {word}: no number");
        match self.option(name) {
            None => Ok(usual),
            Some(word) => word.parse().map_err(|_| no_number(word)),
        }
    }

    /// The words that are neither options nor their values.
    fn files(&self) -> Vec<PathBuf> {
        let option = |at: usize| self.words[at].starts_with("--");
        let plain = |at: &usize| !option(*at) && (*at == 0 || !option(*at - 1));
        let places = (0..self.words.len()).filter(plain);
        places.map(|at| PathBuf::from(&self.words[at])).collect()
    }

    /// The library under test: the one that is linked in, or the restatement where that is asked for.
    fn library(&self) -> Result<&'static dyn Library, String> {
        match self.option("--library").unwrap_or("linked") {
            "restated" => Ok(&Restated),
            #[cfg(library)]
            "linked" => Ok(crate::ffi::linked()?),
            #[cfg(not(library))]
            "linked" => Err(String::from(
                "libcadnohal.a was not there when this was built (CADNOHAL_LIB_DIR)",
            )),
            other => Err(format!("--library {other}: linked or restated")),
        }
    }
}

pub fn main(mut words: Vec<String>) -> ExitCode {
    let command = if words.is_empty() {
        String::new()
    } else {
        words.remove(0)
    };
    let arguments = Arguments { words };
    let status = |same: bool| u8::from(!same);
    let result = match command.as_str() {
        "run" => run_command(&arguments),
        "record" => record_command(&arguments).map(status),
        "replay" => replay_command(&arguments).map(status),
        "shaders" => shaders_command(&arguments).map(status),
        "mutants" => mutants_command(&arguments).map(status),
        "time" => time_command(&arguments).map(status),
        _ => Err(String::from(USAGE)),
    };
    match result {
        Ok(status) => ExitCode::from(status),
        Err(why) => {
            eprintln!("{why}");
            ExitCode::from(2)
        }
    }
}

/// What the library is held against.
#[derive(Clone, Copy, Debug, PartialEq, Eq)]
pub enum Over {
    Files,
    Crate,
    Nothing,
}

impl Over {
    /// As this program was built.
    pub const HERE: Over = if cfg!(files) {
        Over::Files
    } else if cfg!(published) {
        Over::Crate
    } else {
        Over::Nothing
    };

    fn name(self) -> &'static str {
        match self {
            Over::Files => "files",
            Over::Crate => "crate",
            Over::Nothing => "nothing",
        }
    }

    /// The end of a run's last line.
    pub fn summary(self) -> &'static str {
        match self {
            Over::Files => "over the published files of naga 30.0.1",
            Over::Crate => "over the crate naga 30.0.1",
            Over::Nothing => "without the published Rust",
        }
    }

    /// The status of a run that was asked to be over this, if it was asked.
    pub fn status(self, same: bool, asked: bool) -> u8 {
        match self {
            _ if !same => 1,
            Over::Nothing if !asked => WITHOUT_RUST,
            _ => 0,
        }
    }
}

/// Whether the run was asked to be over what this program was built with; any other wish is an error.
fn asked_over(arguments: &Arguments) -> Result<bool, String> {
    match arguments.option("--over") {
        None => Ok(false),
        Some(name) if name == Over::HERE.name() => Ok(true),
        Some(name) => Err(format!(
            "--over {name}: this program was built over {}",
            Over::HERE.name()
        )),
    }
}

/// What the published text is, where it is known.
fn published_text() -> &'static str {
    option_env!("PUBLISHED_TEXT").unwrap_or("its text is not known")
}

/// The names of the roads, in the order in which they are counted.
fn road_names() -> Vec<&'static str> {
    #[cfg(published)]
    return crate::roads::ROADS.iter().map(|(_, name)| *name).collect();
    #[cfg(not(published))]
    Vec::new()
}

/// The status of the run.
fn run_command(arguments: &Arguments) -> Result<u8, String> {
    let library = arguments.library()?;
    let (over, asked) = (Over::HERE, asked_over(arguments)?);
    let blocks = arguments.number("--blocks", u64::MAX)?;
    let usual = if blocks == u64::MAX { 60 } else { u64::MAX };
    let plan = run::Plan {
        seconds: arguments.number("--seconds", usual)?,
        blocks,
        seed: arguments.number("--seed", 1)?,
        threads: arguments.number("--threads", 1)?.max(1) as usize,
    };
    if over == Over::Nothing {
        println!("{NO_SOURCES}");
        if !replay_all(library, &replay::recorded_files()?)? {
            return Ok(over.status(false, asked));
        }
        println!("the generated modules are held against this harness's own restatement");
    } else {
        println!("{}: {}", over.summary(), published_text());
    }
    let begin = std::time::Instant::now();
    let summary = run::run(library, &plan);
    let seconds = begin.elapsed().as_secs_f64();
    print!("{}", summary.stats.table(&road_names()));
    let (whole, shapes) = summary.small;
    println!("small: {whole} of {shapes} shapes whole");
    println!(
        "seed {}, {} blocks, {seconds:.0} s, {:.0} modules a second",
        plan.seed,
        summary.blocks,
        summary.stats.all_modules() as f64 / seconds
    );
    let same = summary.failure.is_none();
    if let Some(failure) = summary.failure {
        let text = run::failure_text(library, &failure);
        let file = Path::new("harness-failure.txt");
        std::fs::write(file, &text).map_err(|why| format!("{}: {why}", file.display()))?;
        println!("{}:\n{text}", file.display());
    }
    println!("differences: {}, {}", u8::from(!same), over.summary());
    Ok(over.status(same, asked))
}

#[cfg(published)]
fn record_command(arguments: &Arguments) -> Result<bool, String> {
    if !cfg!(files) {
        let why = "answers are recorded over the published files: some have flags that the crate does not give";
        return Err(String::from(why));
    }
    let folder = arguments.option("--to").unwrap_or(replay::RECORDED);
    let seed = arguments.number("--seed", 1)?;
    let (cases, files) = crate::record::record(seed, Path::new(folder))?;
    println!("{cases} cases in {files} files");
    Ok(true)
}

#[cfg(not(published))]
fn record_command(_arguments: &Arguments) -> Result<bool, String> {
    Err(String::from(
        "the published sources are not here (NAGA_SRC); nothing to record",
    ))
}

/// True if each wrong library is caught.
fn mutants_command(arguments: &Arguments) -> Result<bool, String> {
    Ok(mutants::table(arguments.library()?))
}

fn replay_command(arguments: &Arguments) -> Result<bool, String> {
    let library = arguments.library()?;
    let mut files = arguments.files();
    if files.is_empty() {
        files = replay::recorded_files()?;
    }
    replay_all(library, &files)
}

/// True if every file gives what was recorded.
fn replay_all(library: &dyn Library, files: &[PathBuf]) -> Result<bool, String> {
    let mut all = 0;
    for file in files {
        let (cases, difference) = replay::replay(library, file)?;
        all += cases;
        if let Some(difference) = difference {
            println!("{}: {difference}", file.display());
            return Ok(false);
        }
    }
    println!("{all} recorded cases in {} files: as recorded", files.len());
    Ok(true)
}

/// True if naga and the library leave the same of each shader.
#[cfg(feature = "crate")]
fn shaders_command(arguments: &Arguments) -> Result<bool, String> {
    crate::shaders::shaders(arguments.library()?, &arguments.files())
}

#[cfg(not(feature = "crate"))]
fn shaders_command(_arguments: &Arguments) -> Result<bool, String> {
    Err(String::from(
        "shaders are read by the crate naga itself, and this was built without it",
    ))
}

/// Prints how long the published Rust takes for one module.
#[cfg(published)]
fn time_command(arguments: &Arguments) -> Result<bool, String> {
    let file = arguments.option("--module").ok_or(USAGE)?;
    let text = std::fs::read_to_string(file).map_err(|why| format!("{file}: {why}"))?;
    let keep = match arguments.option("--flag") {
        Some("yes") => true,
        Some("no") => false,
        _ => return Err(String::from("--flag: yes or no")),
    };
    let turns = arguments.number("--turns", 100)? as usize;
    let flat = crate::time::read(&text).map_err(|why| format!("{file}: {why}"))?;
    let [median, low, high] = crate::time::time(&flat, keep, turns)?;
    println!("{median} {low} {high}");
    Ok(true)
}

#[cfg(not(published))]
fn time_command(_: &Arguments) -> Result<bool, String> {
    Err(String::from(NO_SOURCES))
}
