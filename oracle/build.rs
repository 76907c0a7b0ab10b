//! Finds the two things that are compared: the four files of cfb 0.15.0 and the archive of the library.
//!
//! RASUVELK_CFB names the crate's folder, its `src`, or the folder `internal` with the four files; RASUVELK_ARCHIVE names
//! the one that holds libexport.a.

use std::env;
use std::fs;
use std::path::{Path, PathBuf};

const FILES: [&str; 4] = ["consts", "header", "alloc", "chain"];

fn main() {
    println!("cargo::rerun-if-changed=build.rs");
    println!("cargo::rustc-check-cfg=cfg(oracle)");
    name_the_files();
    if env::var_os("CARGO_FEATURE_MODEL").is_none() {
        link_the_archive();
    }
}

/// The folder that a variable names, or one below the project's own folder.
fn folder(variable: &str, usual: &str) -> PathBuf {
    println!("cargo::rerun-if-env-changed={variable}");
    match env::var_os(variable) {
        Some(named) => PathBuf::from(named),
        None => PathBuf::from(env::var_os("CARGO_MANIFEST_DIR").unwrap()).join(usual),
    }
}

/// Whether a folder has all four files.
fn has_all(from: &Path) -> bool {
    FILES.iter().all(|name| {
        let file = from.join(format!("{name}.rs"));
        println!("cargo::rerun-if-changed={}", file.display());
        file.is_file()
    })
}

/// The folder with all four files. Without the variable, or with an empty one, there may be none; a variable that
/// names a folder without them is a mistake, and stops the build.
fn source() -> Option<PathBuf> {
    let named = env::var_os("RASUVELK_CFB");
    let from = folder("RASUVELK_CFB", "../../shared/docs/src");
    if from.as_os_str().is_empty() {
        return None;
    }
    let mut places = ["", "internal", "src/internal"].map(|below| from.join(below)).into_iter();
    let found = places.find(|place| has_all(place));
    if found.is_none() && named.is_some() {
        panic!("RASUVELK_CFB names {}, where {FILES:?} are not", from.display());
    }
    found
}

/// Writes the module list of the four files, and sets `oracle` where all of them are there.
fn name_the_files() {
    let mut list = String::new();
    if let Some(from) = source() {
        for name in FILES {
            let path = from.join(format!("{name}.rs")).canonicalize().unwrap();
            list.push_str(&format!("#[path = {path:?}]\npub mod {name};\n"));
        }
        println!("cargo::rustc-cfg=oracle");
    }
    let out = PathBuf::from(env::var_os("OUT_DIR").unwrap());
    fs::write(out.join("internal.rs"), list).unwrap();
}

/// Links libexport.a, or stops with a sentence that says how to make it.
fn link_the_archive() {
    let from = folder("RASUVELK_ARCHIVE", "../target/host");
    let archive = from.join("libexport.a");
    println!("cargo::rerun-if-changed={}", archive.display());
    if !archive.is_file() {
        let advice = "make it with `scripts/host-archive export`, or build with `--features model`";
        println!("cargo::error=There is no {}: {advice}.", archive.display());
        return;
    }
    println!("cargo::rustc-link-search=native={}", from.display());
    println!("cargo::rustc-link-lib=static=export");
}
