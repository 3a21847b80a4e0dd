//! Writes the constants, texts and declarations of include/rights.h as Rust, and links the engine's
//! archive.

mod archive;
mod header;
mod target;

use std::env;
use std::path::{Path, PathBuf};
use std::process::exit;

/// A result, or what is said of the failure.
type Outcome<T> = Result<T, String>;

fn main() {
    if let Err(message) = run() {
        eprintln!("rights: {message}");
        exit(1);
    }
}

fn run() -> Outcome<()> {
    target::require_supported()?;
    let package = PathBuf::from(variable("CARGO_MANIFEST_DIR")?);
    let top = package.parent().ok_or("the package lies in no repository")?;
    let out = PathBuf::from(variable("OUT_DIR")?);
    header::write(&top.join("include/rights.h"), &out)?;
    let folder = archive::folder(top, &package)?;
    let archive = folder.join(archive::NAME);
    rerun_if_changed(&archive);
    // For the tests that build copies of this package.
    println!("cargo::rustc-env=RIGHTS_ARCHIVE={}", archive.display());
    println!("cargo::rustc-link-search=native={}", folder.display());
    println!("cargo::rustc-link-lib=static=rights_c");
    Ok(())
}

/// A variable that cargo sets.
fn variable(name: &str) -> Outcome<String> {
    env::var(name).map_err(|error| format!("{name}: {error}"))
}

fn rerun_if_changed(path: &Path) {
    println!("cargo::rerun-if-changed={}", path.display());
}
