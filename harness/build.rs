//! Lays out the published compactor for the library target and finds the static library.
//!
//! The published files are copied byte for byte. Only the files that the published text names and that
//! are not in it are taken from `src/standin/arena`. Over the crate itself (`crate/Cargo.toml`) nothing
//! is laid out.

use std::env;
use std::fs;
use std::path::{Path, PathBuf};

/// The published files that are built, as they are named under the source folder.
const PUBLISHED: [&str; 9] = [
    "arena/mod.rs",
    "arena/handle_set.rs",
    "compact/mod.rs",
    "compact/expressions.rs",
    "compact/functions.rs",
    "compact/handle_set_map.rs",
    "compact/statements.rs",
    "compact/types.rs",
    "non_max_u32.rs",
];

/// What `arena/mod.rs` names beside `handle_set`.
const STANDINS: [&str; 4] = ["handle.rs", "handlevec.rs", "range.rs", "unique_arena.rs"];

fn main() {
    let manifest = PathBuf::from(env::var("CARGO_MANIFEST_DIR").unwrap());
    let out = PathBuf::from(env::var("OUT_DIR").unwrap());
    for variable in ["NAGA_SRC", "NAGA_CRATE_SRC", "CADNOHAL_LIB_DIR"] {
        println!("cargo:rerun-if-env-changed={variable}");
    }
    let over_the_crate = env::var_os("CARGO_FEATURE_CRATE").is_some();
    let here = if over_the_crate {
        manifest.parent().unwrap().to_path_buf()
    } else {
        manifest
    };
    println!("cargo:rerun-if-changed={}", here.join("build.rs").display());
    println!("cargo:rustc-env=HARNESS={}", here.display());
    if over_the_crate {
        println!("cargo:rustc-cfg=published");
        tell_crate(&here);
    } else {
        lay_out_published(&here, &out);
    }
    link_library(&here);
}

/// A folder from the environment, or its usual place beside the manifest.
fn folder(here: &Path, variable: &str, usual: &str) -> PathBuf {
    match env::var_os(variable) {
        Some(given) => PathBuf::from(given),
        None => here.join(usual),
    }
}

/// Copies the published files and writes the file that names them as modules.
fn lay_out_published(here: &Path, out: &Path) {
    let source = folder(here, "NAGA_SRC", "../../shared/docs/src");
    for file in PUBLISHED {
        println!("cargo:rerun-if-changed={}", source.join(file).display());
    }
    if !PUBLISHED.iter().all(|file| source.join(file).is_file()) {
        return;
    }
    let tree = out.join("published");
    let mut print = Print::new();
    for file in PUBLISHED {
        let text = fs::read(source.join(file)).unwrap();
        print.take(&text);
        put(&tree.join(file), &text);
    }
    for file in STANDINS {
        let from = here.join("src/standin/arena").join(file);
        println!("cargo:rerun-if-changed={}", from.display());
        put(&tree.join("arena").join(file), &fs::read(from).unwrap());
    }
    put(&out.join("published.rs"), modules(&tree).as_bytes());
    println!("cargo:rustc-cfg=published");
    println!("cargo:rustc-cfg=files");
    println!("cargo:rustc-env=PUBLISHED_TEXT={}", print.line());
}

/// Tells of the crate's `compact/`, where the crate's sources are known, whether it is the published text.
fn tell_crate(here: &Path) {
    let Some(source) = env::var_os("NAGA_CRATE_SRC").map(PathBuf::from) else {
        return;
    };
    let published = folder(here, "NAGA_SRC", "../../shared/docs/src");
    let (mut print, mut same) = (Print::new(), true);
    for file in PUBLISHED.iter().filter(|file| file.starts_with("compact/")) {
        println!("cargo:rerun-if-changed={}", source.join(file).display());
        let text = fs::read(source.join(file)).unwrap();
        print.take(&text);
        same &= fs::read(published.join(file)).is_ok_and(|other| other == text);
    }
    let told = if same {
        "byte for byte the published text"
    } else {
        "not held against the published text, which is not here or is another"
    };
    println!(
        "cargo:rustc-env=PUBLISHED_TEXT=compact/ {}, {told}",
        print.line()
    );
}

/// The modules of the published text. `handle_set_map.rs` stands there twice: once inside `compact`,
/// where it is private, and once by itself, so that its map can be asked directly.
fn modules(tree: &Path) -> String {
    let place = |file: &str| format!("{:?}", tree.join(file).display().to_string());
    let quiet = "#[allow(dead_code, unused_imports, unused_mut, unused_lifetimes, clippy::all)]";
    format!(
        "{quiet}\n#[path = {}]\npub mod arena;\n\
         {quiet}\n#[path = {}]\npub mod compact;\n\
         {quiet}\n#[path = {}]\npub mod handle_set_map;\n\
         {quiet}\n#[path = {}]\npub mod non_max_u32;\n",
        place("arena/mod.rs"),
        place("compact/mod.rs"),
        place("compact/handle_set_map.rs"),
        place("non_max_u32.rs"),
    )
}

fn put(path: &Path, text: &[u8]) {
    fs::create_dir_all(path.parent().unwrap()).unwrap();
    fs::write(path, text).unwrap();
}

/// Files, lines and a 64-bit FNV-1a sum of the published text, for the report.
struct Print {
    files: usize,
    lines: usize,
    sum: u64,
}

impl Print {
    fn new() -> Self {
        Print {
            files: 0,
            lines: 0,
            sum: 0xcbf2_9ce4_8422_2325,
        }
    }

    fn take(&mut self, text: &[u8]) {
        self.files += 1;
        self.lines += text.iter().filter(|&&byte| byte == b'\n').count();
        for &byte in text {
            self.sum = (self.sum ^ u64::from(byte)).wrapping_mul(0x0000_0100_0000_01b3);
        }
    }

    fn line(&self) -> String {
        format!(
            "{} files, {} lines, FNV-1a {:016x}",
            self.files, self.lines, self.sum
        )
    }
}

/// Tells where `libcadnohal.a` is, if it is there. `src/ffi.rs` links it.
fn link_library(here: &Path) {
    let place = folder(here, "CADNOHAL_LIB_DIR", "../target/staticlib");
    let archive = place.join("libcadnohal.a");
    println!("cargo:rerun-if-changed={}", archive.display());
    if archive.is_file() {
        println!("cargo:rustc-link-search=native={}", place.display());
        println!("cargo:rustc-cfg=library");
    }
}
