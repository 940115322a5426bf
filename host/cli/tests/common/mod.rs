//! What the tests share: running the program, and numbers and modules from a seed.
#![allow(dead_code)] // Each test uses its own part.

use cadnohal::{kinds, kinds::Holds, Area, Module, N};
use std::{
    ffi::OsString,
    io::Write,
    path::PathBuf,
    process::{Command, Stdio},
};

/// What the program did.
#[derive(Debug, PartialEq, Eq)]
pub struct Done {
    pub status: i32,
    pub out: String,
    pub err: String,
}

/// What starts the program where the machine can't by itself: `machine.sh` names an emulator on Arm.
fn emulator() -> Option<OsString> {
    std::env::var_os("CADNOHAL_EMULATOR")
}

/// The program, ready to be given arguments.
pub fn program() -> Command {
    let program = env!("CARGO_BIN_EXE_cadnohal");
    match emulator() {
        None => Command::new(program),
        Some(emulator) => {
            let mut command = Command::new(emulator);
            command.arg(program);
            command
        }
    }
}

/// Runs the program with these arguments and this standard input.
pub fn run_bytes(arguments: &[&str], input: &[u8]) -> Done {
    let mut child = program()
        .args(arguments)
        .stdin(Stdio::piped())
        .stdout(Stdio::piped())
        .stderr(Stdio::piped())
        .spawn()
        .expect("the program starts");
    let mut stdin = child.stdin.take().expect("standard input is a pipe");
    let input = input.to_vec();
    // The program may end without reading all of it.
    let feeder = std::thread::spawn(move || drop(stdin.write_all(&input)));
    let output = child.wait_with_output().expect("the program ends");
    feeder.join().expect("the feeder ends");
    Done {
        status: output.status.code().expect("the program ends by itself"),
        out: String::from_utf8(output.stdout).expect("standard output is UTF-8"),
        err: String::from_utf8(output.stderr).expect("standard error is UTF-8"),
    }
}

/// Runs the program with these arguments and this standard input.
pub fn run(arguments: &[&str], input: &str) -> Done {
    run_bytes(arguments, input.as_bytes())
}

/// A file of the folder of examples.
pub fn example(name: &str) -> PathBuf {
    PathBuf::from(env!("CARGO_MANIFEST_DIR"))
        .join("../../examples")
        .join(name)
}

/// A xorshift generator.
pub struct Random(u64);

impl Random {
    pub fn new(seed: u64) -> Self {
        Self(seed.wrapping_mul(0x9e37_79b9_7f4a_7c15) | 1)
    }

    pub fn next(&mut self) -> u64 {
        self.0 ^= self.0 << 13;
        self.0 ^= self.0 >> 7;
        self.0 ^= self.0 << 17;
        self.0 >> 11
    }

    /// A number below `end`, which is not 0.
    pub fn below(&mut self, end: u32) -> u32 {
        (self.next() % u64::from(end)) as u32
    }

    /// True once in `in_all` times.
    pub fn once_in(&mut self, in_all: u32) -> bool {
        self.below(in_all) == 0
    }
}

/// The tail of a record with this tag. Of four tags one has no span; else the words are small, large
/// or N, and no two tags have the same.
pub fn tail(tag: u32) -> [u32; 3] {
    match tag % 4 {
        0 => [0, 0, tag],
        1 => [tag, N, tag],
        2 => [N, tag, tag],
        _ => [N - tag, tag.wrapping_mul(0x9e37_79b9), tag],
    }
}

/// A module that the check accepts: every reference is older, and expressions that name types stand
/// above what sizes them.
pub struct Good {
    pub random: Random,
    pub module: Module,
}

impl Good {
    /// A module from a seed, with up to `most` records an area.
    pub fn module(seed: u64, most: u32) -> Module {
        let mut good = Good {
            random: Random::new(seed),
            module: Module::default(),
        };
        let counts = [0; 6].map(|_| 1 + good.random.below(most));
        good.overrides_and_constants(counts[1], counts[2], counts[4]);
        for handle in 0..counts[0].max(2) {
            good.type_record(handle);
        }
        for handle in 0..counts[4] {
            good.expression(handle);
        }
        good.globals_and_mentions(counts[3], counts[5] / 4);
        good.module
    }

    /// Adds a record with the tail of this tag.
    fn add(&mut self, area: Area, words: &[u32], tag: u32) {
        let area = self.module.area_mut(area);
        area.extend(words);
        area.extend(tail(tag));
    }

    fn record(&self, area: Area, record: u32) -> &[u32] {
        self.module.record(area, record).expect("it is there")
    }

    /// Types 0 and 1 are leaves, so that constants and overrides can be of them.
    fn overrides_and_constants(&mut self, constants: u32, overrides: u32, expressions: u32) {
        for tag in 0..constants {
            let words = [
                self.random.below(2),
                self.random.below(2),
                self.random.below(expressions),
            ];
            self.add(Area::Constants, &words, tag);
        }
        for tag in 0..overrides {
            let init = match self.random.once_in(3) {
                true => N,
                false => self.random.below(expressions),
            };
            let words = [self.random.below(2), self.random.below(2), init];
            self.add(Area::Overrides, &words, tag);
        }
    }

    fn type_record(&mut self, handle: u32) {
        let flags = self.random.below(4);
        let kind = match handle {
            0 | 1 => 0,
            _ => self.random.below(4),
        };
        let [a, b] = match kind {
            1 => [self.random.below(handle), N],
            2 => {
                let overrides = self.module.count(Area::Overrides) as u32;
                [self.random.below(handle), self.random.below(overrides)]
            }
            3 => {
                let start = self.module.members.len() as u32;
                let count = self.random.below(4);
                for _ in 0..count {
                    let member = self.random.below(handle);
                    self.module.members.push(member);
                }
                [start, count]
            }
            _ => [N, N],
        };
        self.add(Area::Types, &[kind, flags, a, b], handle);
    }

    /// The largest init among the overrides that size this type or one before it, plus 1, or 0.
    fn above(&self, ty: u32) -> u32 {
        let types = (0..=ty).map(|ty| self.record(Area::Types, ty));
        let sizes = types.filter(|ty| ty[0] == 2).map(|ty| ty[3]);
        let inits = sizes.map(|size| self.record(Area::Overrides, size)[2]);
        inits
            .filter(|&init| init != N)
            .map(|init| init + 1)
            .max()
            .unwrap_or(0)
    }

    /// A handle of `area` that expression `handle` may name, if the first one tried is good.
    fn older(&mut self, area: Area, handle: u32) -> Option<u32> {
        let count = match area {
            Area::Expressions => handle,
            _ => self.module.count(area) as u32,
        };
        let tried = self.random.below(count.max(1));
        let good = match area {
            Area::Expressions => handle > 0,
            Area::Types => self.above(tried) <= handle,
            _ => {
                let record = self.module.record(area, tried)?;
                let (ty, init) = (record[1], record[2]);
                (init == N || init < handle) && self.above(ty) <= handle
            }
        };
        good.then_some(tried)
    }

    fn expression(&mut self, handle: u32) {
        let kind = match self.random.below(34) {
            13 | 27 => 0,
            kind => kind,
        };
        let words = self.expression_words(kind, handle);
        let words = words.unwrap_or([0, N, N, N, N, N, N, N, N, N]);
        if words[0] == 8 {
            for _ in 0..words[3] {
                let component = self.random.below(handle);
                self.module.components.push(component);
            }
        }
        self.add(Area::Expressions, &words, handle);
    }

    /// The words before the tail, unless a slot found nothing good.
    fn expression_words(&mut self, kind: u32, handle: u32) -> Option<[u32; 10]> {
        let mut words = [N; 10];
        let mut form = 0;
        for (at, slot) in (1..).zip(kinds::EXPRESSIONS[kind as usize].slots) {
            words[at] = match slot.holds {
                Holds::Handle(area) => self.older(area, handle)?,
                Holds::Optional(area) => match self.random.once_in(2) {
                    true => N,
                    false => self.older(area, handle)?,
                },
                Holds::Form(forms) => {
                    form = self.random.below(forms.len() as u32);
                    form
                }
                Holds::ByForm(area) => match (kind, form, slot.name) {
                    (15, 2..=4, "x") | (15, 4, "y") | (17, 0, _) => self.older(area, handle)?,
                    _ => N,
                },
                Holds::Start(pool) => self.module.area(pool).len() as u32,
                Holds::Count(_) if handle == 0 => 0,
                Holds::Count(_) => self.random.below(4),
            };
        }
        words[0] = kind;
        Some(words)
    }

    fn globals_and_mentions(&mut self, globals: u32, mentions: u32) {
        let types = self.module.count(Area::Types) as u32;
        let expressions = self.module.count(Area::Expressions) as u32;
        for tag in 0..globals {
            let init = match self.random.once_in(2) {
                true => N,
                false => self.random.below(expressions),
            };
            let ty = self.random.below(types);
            self.add(Area::Globals, &[ty, init], tag);
        }
        for _ in 0..mentions {
            let area = self.random.below(5);
            let count = self.module.count(Area::ALL[area as usize]) as u32;
            let handle = self.random.below(count);
            self.module.mentions.extend([area, handle]);
        }
    }
}
