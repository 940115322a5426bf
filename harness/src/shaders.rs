//! Shaders: read by the crate's front ends, compacted by the crate and by the library, and held against each other.

use crate::compare::{judge, same_pass};
use crate::expect::expect_check;
use crate::flat::*;
use crate::generate::Foretold;
use crate::handles::handle;
use crate::host;
use crate::library::{Lent, Library};
use crate::report::Stats;
use crate::rust::caught;
use naga::compact::{compact, KeepUnused};
use naga::front::{glsl, wgsl};
use naga::valid::{Capabilities, ValidationFlags, Validator};
use naga::{Module, ShaderStage};
use std::error::Error;
use std::path::{Path, PathBuf};

/// The shaders that were written for this.
pub const OWN: &str = concat!(env!("HARNESS"), "/shaders");

/// The refusal of an area with more records than its limit.
const TOO_MANY: u32 = 2;

/// The verdict of the validator, or of a comparison.
type Verdict = Result<(), String>;

/// What the crate's front ends make of a file, if its name says that it is a shader.
fn parse(file: &Path) -> Option<Result<Module, String>> {
    let stage = match file.extension()?.to_str()? {
        "wgsl" => None,
        "vert" => Some(ShaderStage::Vertex),
        "frag" => Some(ShaderStage::Fragment),
        "comp" => Some(ShaderStage::Compute),
        _ => return None,
    };
    let read = caught(|| read(file, stage));
    Some(read.unwrap_or_else(|panic| Err(format!("the front end panics at {panic}"))))
}

/// A WGSL file, or a GLSL file of a stage.
fn read(file: &Path, stage: Option<ShaderStage>) -> Result<Module, String> {
    let bytes = std::fs::read(file).map_err(|why| why.to_string())?;
    let text = String::from_utf8_lossy(&bytes);
    match stage {
        None => wgsl::parse_str(&text).map_err(|why| why.message().to_string()),
        Some(stage) => glsl::Frontend::default()
            .parse(&glsl::Options::from(stage), &text)
            .map_err(|why| why.to_string().lines().next().unwrap_or("").to_string()),
    }
}

fn valid(module: &Module) -> Verdict {
    let mut validator = Validator::new(ValidationFlags::all(), Capabilities::all());
    match caught(|| validator.validate(module)) {
        Ok(Ok(_)) => Ok(()),
        Ok(Err(why)) => Err(chain(&why.into_inner())),
        Err(panic) => Err(format!("the validator panics at {panic}")),
    }
}

/// An error and those behind it.
fn chain(error: &dyn Error) -> String {
    match error.source() {
        Some(behind) => format!("{error}: {}", chain(behind)),
        None => error.to_string(),
    }
}

/// Elements of areas 0 to 4.
type Elements = [u32; 5];

/// One pass over a shader, by the crate and by the library.
struct Pass {
    before: Elements,
    by_crate: Elements,
    by_library: Elements,
    /// On what the crate left, and on what the library's answers make.
    valid: [Verdict; 2],
    /// Handles that the crate left under their old numbers.
    stale: usize,
    /// Elements that the library kept with a span and without one.
    spans: [usize; 2],
    /// Where the two parted.
    same: Verdict,
}

/// What the crate left of a shader.
struct Left {
    module: Module,
    after: After,
    valid: Verdict,
    stale: usize,
}

/// A shader as it was read; with its elements numbered; and so with its functions settled.
struct Shader {
    module: Module,
    numbered: Module,
    settled: Module,
}

impl Shader {
    fn new(module: Module) -> Result<Self, String> {
        let numbered = host::numbered(&module);
        let settled = caught(|| host::settle(&numbered))??;
        Ok(Shader {
            module,
            numbered,
            settled,
        })
    }

    /// The words, with the mentions of the functions that count.
    fn words(&mut self, reached: &[bool]) -> Flat {
        let mut flat = host::tagged(&self.module, &host::numbers(&self.numbered));
        flat.areas[MENTIONS] = host::mentions(&mut self.settled, reached);
        flat.fit_rooms();
        flat
    }

    /// Compacts by the crate, once as it was read and once numbered: the first tells the spans, the second the maps.
    fn by_crate(&self, flat: &Flat, keep: bool) -> Result<Left, String> {
        let mut module = by_crate(&self.module, keep)?;
        let numbered = by_crate(&self.numbered, keep)?;
        same_module("naga's pass over other spans", &module, &numbered)?;
        let valid = valid(&module);
        let numbers = host::numbers(&numbered);
        let mut areas = host::tagged(&module, &numbers).areas;
        let maps: [Vec<u32>; 5] = std::array::from_fn(|area| {
            let mut map = vec![N; flat.records(area)];
            for (new, old) in numbers[area].iter().enumerate() {
                map[*old as usize] = new as u32;
            }
            map
        });
        let stale = move_payloads(&mut module, &maps[GLOBALS]);
        areas[MENTIONS] = host::mentions(&mut module, &vec![true; self.module.functions.len()]);
        let counts = std::array::from_fn(|area| (areas[area].len() / WIDTHS[area]) as u32);
        for area in 0..7 {
            areas[area].resize(flat.areas[area].len(), N);
        }
        let after = After {
            counts,
            areas,
            maps,
        };
        Ok(Left {
            module,
            after,
            valid,
            stale,
        })
    }

    /// Compacts by both and compares; nothing if the shader is larger than a limit.
    fn pass(&mut self, library: &dyn Library, keep: bool) -> Result<Option<Pass>, String> {
        let reached = host::reached(&mut self.settled, keep);
        let flat = self.words(&reached);
        let left = self.by_crate(&flat, keep)?;
        let mut lent = Lent::new(&flat, |_| 0);
        let answer = library.compact(&mut lent, keep);
        match (expect_check(&flat), answer.number) {
            (Some(refusal), TOO_MANY) if refusal.answer() == answer => return Ok(None),
            (_, 0) => {}
            _ => return Err(format!("refused: {answer:?}")),
        }
        let rebuilt = host::rebuild(library, &self.settled, &reached, &lent);
        let same = same_pass("the library against naga", answer, &lent, &left.after)
            .and_then(|()| same_rebuilt(&left.module, rebuilt.as_ref().map_err(String::clone)?))
            .and_then(|()| as_generated(library, &flat));
        Ok(Some(Pass {
            before: std::array::from_fn(|area| flat.records(area) as u32),
            by_crate: std::array::from_fn(|area| left.after.counts[area]),
            by_library: std::array::from_fn(|area| answer.counts[area]),
            valid: [left.valid, rebuilt.and_then(|module| valid(&module))],
            stale: left.stale,
            spans: spans(&answer, &lent),
            same,
        }))
    }
}

/// What the crate leaves of a module.
fn by_crate(module: &Module, keep: bool) -> Result<Module, String> {
    let mut module = module.clone();
    let mode = match keep {
        true => KeepUnused::Yes,
        false => KeepUnused::No,
    };
    match caught(|| compact(&mut module, mode)) {
        Ok(()) => Ok(module),
        Err(panic) => Err(format!("naga panics at {panic}")),
    }
}

/// All comparisons of a generated module, on the words of a shader.
fn as_generated(library: &dyn Library, flat: &Flat) -> Verdict {
    match judge(library, flat, Foretold::Accepted, 1, &mut Stats::default()) {
        Ok(_) => Ok(()),
        Err(difference) => Err(difference.what),
    }
}

/// How many elements a pass kept with a span and without one.
fn spans(answer: &Answer, lent: &Lent) -> [usize; 2] {
    let mut numbers = [0, 0];
    for area in 0..5 {
        let records = lent.areas[area].get().chunks_exact(WIDTHS[area]);
        for record in records.take(answer.counts[area] as usize) {
            let [start, length, _] = tail(area, record);
            numbers[usize::from([start, length] == [0, 0])] += 1;
        }
    }
    numbers
}

/// The payload that a ray stage receives: nothing in the crate's pass names it, so it stays under its old number, and
/// only the map tells its new one. How many were moved.
fn move_payloads(module: &mut Module, map: &[u32]) -> usize {
    let mut moved = 0;
    for entry in &mut module.entry_points {
        if let Some(payload) = &mut entry.incoming_ray_payload {
            let new = map[payload.index()];
            if new != N && new as usize != payload.index() {
                *payload = handle(new);
                moved += 1;
            }
        }
    }
    moved
}

/// The rebuilt module is what the crate left, to the last statement and with the spans of the arenas.
fn same_rebuilt(left: &Module, rebuilt: &Module) -> Verdict {
    same_module("the rebuilt module", left, rebuilt)?;
    match host::untagged(left) == host::untagged(rebuilt) {
        true => Ok(()),
        false => Err(String::from("the rebuilt module has other spans")),
    }
}

/// Two modules are the same to the last statement; spans aside, which do not show.
fn same_module(who: &str, wanted: &Module, module: &Module) -> Verdict {
    let (wanted, module) = (format!("{wanted:#?}"), format!("{module:#?}"));
    if wanted == module {
        return Ok(());
    }
    let mut lines = module.lines().zip(wanted.lines());
    let parted = lines.find(|(a, b)| a != b).unwrap_or(("the end", "more"));
    let (module, wanted) = (parted.0.trim(), parted.1.trim());
    Err(format!("{who}: {module} and not {wanted}"))
}

/// What came of some shaders.
#[derive(Default)]
struct Totals {
    read: usize,
    unread: usize,
    /// Shaders that are not valid before a pass, and passes that leave such ones.
    invalid: [usize; 2],
    passes: usize,
    /// Passes over shaders that are larger than a limit.
    large: usize,
    /// Handles that the crate left under their old numbers.
    stale: usize,
    /// Elements that the library kept with a span and without one.
    spans: [usize; 2],
    parted: usize,
    /// What is to be said below the table.
    remarks: Vec<String>,
}

impl Totals {
    fn remark(&mut self, name: &str, what: &str) {
        self.remarks.push(format!("{name}: {what}"));
    }

    /// Both passes over one shader.
    fn shader(&mut self, library: &dyn Library, name: &str, read: Result<Module, String>) {
        let module = match read {
            Ok(module) => module,
            Err(why) => {
                self.unread += 1;
                return self.remark(name, &format!("not read: {why}"));
            }
        };
        self.read += 1;
        let before = valid(&module);
        if let Err(why) = &before {
            self.invalid[0] += 1;
            self.remark(name, &format!("not valid: {why}"));
        }
        let mut shader = match Shader::new(module) {
            Ok(shader) => shader,
            Err(why) => {
                self.parted += 1;
                return self.remark(name, &why);
            }
        };
        for keep in [false, true] {
            let flag = if keep { "Yes" } else { "No" };
            self.passes += 1;
            match shader.pass(library, keep) {
                Ok(Some(pass)) => self.row(name, flag, &before, &pass),
                Ok(None) => self.large += 1,
                Err(why) => {
                    self.parted += 1;
                    self.remark(name, &format!("{flag}: {why}"));
                }
            }
        }
    }

    /// One line of the table.
    fn row(&mut self, name: &str, flag: &str, before: &Verdict, pass: &Pass) {
        let elements = |counts: Elements| counts.map(|count| count.to_string()).join(" ");
        let said = |verdict: &Verdict| if verdict.is_ok() { "yes" } else { "no" };
        println!(
            "| {name} | {flag} | {} | {} | {} | {} | {} {} {} |",
            elements(pass.before),
            elements(pass.by_crate),
            elements(pass.by_library),
            said(&pass.same),
            said(before),
            said(&pass.valid[0]),
            said(&pass.valid[1]),
        );
        self.stale += pass.stale;
        for (all, some) in self.spans.iter_mut().zip(pass.spans) {
            *all += some;
        }
        self.invalid[1] += usize::from(pass.valid.iter().any(Result::is_err));
        self.parted += usize::from(pass.same.is_err() || pass.valid[0] != pass.valid[1]);
        if let Err(why) = &pass.same {
            self.remark(name, &format!("{flag}: {why}"));
        }
        for after in pass.valid.iter().filter(|after| *after != before) {
            if let Err(why) = after {
                self.remark(name, &format!("{flag}: not valid after the pass: {why}"));
            }
        }
    }

    fn print(&self) {
        println!();
        for remark in &self.remarks {
            println!("{remark}");
        }
        println!(
            "{} shaders read, {} of them not valid before a pass; {} not read by naga's front ends",
            self.read, self.invalid[0], self.unread
        );
        println!(
            "{} passes, {} of them over shaders past a limit; {} leave what is not valid",
            self.passes, self.large, self.invalid[1]
        );
        println!(
            "payloads that naga left under their old numbers: {}",
            self.stale
        );
        println!(
            "elements that the library kept: {} with a span of the front end, {} without",
            self.spans[0], self.spans[1]
        );
        if self.passes == 0 {
            println!("no shader was compared");
        }
        println!("differences: {}", self.parted);
    }
}

/// The files in a folder and in those below it, by name.
fn files(folder: &Path) -> Result<Vec<PathBuf>, String> {
    let told = |why: std::io::Error| format!("{}: {why}", folder.display());
    let mut paths = Vec::new();
    for entry in std::fs::read_dir(folder).map_err(told)? {
        paths.push(entry.map_err(told)?.path());
    }
    paths.sort();
    let mut files_below = Vec::new();
    for path in paths {
        match path.is_dir() {
            true => files_below.extend(files(&path)?),
            false => files_below.push(path),
        }
    }
    Ok(files_below)
}

/// Compares on each shader of the folders, or of those written for this, and prints the table. True if there were
/// passes and nothing parted; of the own shaders each must be read, and valid after each pass.
pub fn shaders(library: &dyn Library, folders: &[PathBuf]) -> Result<bool, String> {
    let own = [PathBuf::from(OWN)];
    let folders = if folders.is_empty() { &own } else { folders };
    let mut totals = Totals::default();
    println!("Elements: types, constants, overrides, globals, expressions. Valid: before, as naga leaves it, rebuilt.\n");
    println!("| Shader | Flag | Before | Kept by naga | Kept by the library | Equal | Valid |");
    println!("|---|---|---|---|---|---|---|");
    for folder in folders {
        for file in files(folder)? {
            let name = file
                .strip_prefix(folder)
                .unwrap_or(&file)
                .display()
                .to_string();
            if let Some(read) = parse(&file) {
                totals.shader(library, &name, read);
            }
        }
    }
    totals.print();
    let whole = folders != own || totals.unread + totals.invalid[1] == 0;
    Ok(totals.passes > 0 && totals.parted == 0 && whole)
}
