//! Finds the static library and tells cargo to link it.

use std::{env, path::Path};

fn main() {
    println!("cargo:rerun-if-env-changed=CADNOHAL_LIB_DIR");
    let manifest = env::var_os("CARGO_MANIFEST_DIR").unwrap_or_default();
    let folder = env::var_os("CADNOHAL_LIB_DIR").unwrap_or("../../target/staticlib".into());
    let folder = Path::new(&manifest).join(folder);
    let archive = folder.join("libcadnohal.a");
    println!("cargo:rerun-if-changed={}", archive.display());
    println!("cargo:rustc-link-search=native={}", folder.display());
    println!("cargo:rustc-link-lib=static=cadnohal");
    // Only a warning: `cargo check` and `cargo doc` need no archive, and other builds stop next.
    if !archive.is_file() {
        println!(
            "cargo:warning={} isn't there; run `bash build.sh` at the repository's root, \
             or set CADNOHAL_LIB_DIR to the folder that holds it",
            archive.display()
        );
    }
}
