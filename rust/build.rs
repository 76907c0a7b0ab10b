//! Finds the archive of the proved library, libexport.a, or makes it.
//!
//! RASUVELK_ARCHIVE names the folder that holds it, or the file itself. Without it the archive is looked for in
//! `../target/host`; where there is none, `../scripts/host-archive export` is run, which needs the Rattle kit.

use std::env;
use std::path::{Path, PathBuf};
use std::process::Command;

const VARIABLE: &str = "RASUVELK_ARCHIVE";
const ARCHIVE: &str = "libexport.a";

fn main() {
    println!("cargo::rerun-if-changed=build.rs");
    println!("cargo::rerun-if-env-changed={VARIABLE}");
    match found() {
        Ok(folder) => {
            println!("cargo::rerun-if-changed={}", folder.join(ARCHIVE).display());
            println!("cargo::rustc-link-search=native={}", folder.display());
            println!("cargo::rustc-link-lib=static=export");
        }
        Err(missing) => println!("cargo::error={missing}"),
    }
}

/// The folder with the archive, or a sentence that says what is missing.
fn found() -> Result<PathBuf, String> {
    match env::var_os(VARIABLE).filter(|named| !named.is_empty()) {
        Some(named) => named_folder(Path::new(&named)),
        None => usual_folder(),
    }
}

/// The folder that the variable names.
fn named_folder(named: &Path) -> Result<PathBuf, String> {
    let file = if named.is_dir() { named.join(ARCHIVE) } else { named.to_path_buf() };
    if file.file_name().is_some_and(|name| name == ARCHIVE) && file.is_file() {
        let whole = file.canonicalize().map_err(|error| format!("{} cannot be reached: {error}.", file.display()))?;
        return whole.parent().map(Path::to_path_buf).ok_or(format!("{} is in no folder.", whole.display()));
    }
    Err(format!(
        "{VARIABLE} names {}, and there is no {ARCHIVE}. It has to name the folder that holds one.",
        named.display()
    ))
}

/// `../target/host`, where the archive is made if it is not there.
fn usual_folder() -> Result<PathBuf, String> {
    let variables = ["CARGO_MANIFEST_DIR", "HOST", "TARGET"].map(|name| env::var(name).unwrap_or_default());
    let [package, host, target] = &variables;
    let project = Path::new(package).join("..");
    let folder = project.join("target/host");
    if host != target {
        let advice = format!("name the folder of one for {target} by {VARIABLE}");
        return Err(format!("The archive in {} is for {host}: {advice}.", folder.display()));
    }
    if !folder.join(ARCHIVE).is_file() {
        make(&project)?;
    }
    if !folder.join(ARCHIVE).is_file() {
        return Err(format!("scripts/host-archive ended well, yet there is no {ARCHIVE} in {}.", folder.display()));
    }
    Ok(folder)
}

/// Runs scripts/host-archive, which proves the library and makes its archive.
fn make(project: &Path) -> Result<(), String> {
    let script = project.join("scripts/host-archive");
    let advice =
        format!("make it by `scripts/host-archive export` in a whole checkout, or name its folder by {VARIABLE}");
    if !script.is_file() {
        return Err(format!("There is no {ARCHIVE}, and no scripts/host-archive to make it: {advice}."));
    }
    if Command::new("rt").arg("doc").output().is_err() {
        return Err(format!(
            "There is no {ARCHIVE}, and the Rattle kit, which makes it, is not found: put its `rt` on the search path; or {advice}."
        ));
    }
    println!("cargo::warning=The library is proved and its archive made first; this takes some minutes, once.");
    let output = Command::new(&script).arg("export").output();
    let output = output.map_err(|error| format!("{} does not run: {error}.", script.display()))?;
    if output.status.success() {
        return Ok(());
    }
    let said = String::from_utf8_lossy(&output.stderr);
    let last = said.lines().rfind(|line| !line.trim().is_empty()).unwrap_or("it said nothing");
    Err(format!("{} failed ({last}): run it by hand to see all that it says.", script.display()))
}
