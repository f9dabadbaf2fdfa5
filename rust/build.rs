//! Finds or makes the archive of the proved library, and has it linked.
//!
//! The environment variable GAUZESPAR_STATICLIB may name an archive. Otherwise `rt lib` in crates/gauzespar makes it.
use std::fs;
use std::path::{Path, PathBuf};
use std::process::{exit, Command};

const VARIABLE: &str = "GAUZESPAR_STATICLIB";

fn fail(message: String) -> ! {
    eprintln!("{message}");
    exit(1)
}

/// What cargo tells a build script by an environment variable.
fn told(name: &str) -> String {
    std::env::var(name).unwrap_or_else(|_| fail(format!("cargo did not set {name}")))
}

fn watch(path: &Path) {
    println!("cargo:rerun-if-changed={}", path.display());
}

/// Watches what the archive is made from.
fn watch_sources(root: &Path) {
    watch(&root.join("crates.txt"));
    let Ok(crates) = fs::read_dir(root.join("crates")) else { return };
    let parts = crates.flatten().flat_map(|folder| ["src", "specs", "proofs"].map(|part| folder.path().join(part)));
    parts.filter(|part| part.is_dir()).for_each(|part| watch(&part));
}

/// Has `rt` make the archive, which it proves first: some minutes from nothing, and at once where nothing has changed.
fn prove(root: &Path) {
    let instead = format!("or set {VARIABLE} to an archive that `rt lib` in crates/gauzespar made.");
    let run = Command::new("rt").arg("lib").current_dir(root.join("crates/gauzespar")).output();
    let output = run.unwrap_or_else(|error| {
        fail(format!("`rt` could not be run: {error}.\nInstall the Rattle toolchain so that `rt` is on the path, {instead}"))
    });
    if !output.status.success() {
        let wrote = [output.stdout, output.stderr].map(|bytes| String::from_utf8_lossy(&bytes).into_owned()).concat();
        fail(format!("`rt lib` in crates/gauzespar failed ({}).\nMend what it found, {instead}\nIt wrote:\n{wrote}", output.status));
    }
}

fn proved_archive(root: &Path) -> PathBuf {
    prove(root);
    watch_sources(root);
    root.join("crates/gauzespar/out/libgauzespar.a")
}

/// The archive to link. A relative path counts from the repository's root.
fn archive(root: &Path) -> PathBuf {
    println!("cargo:rerun-if-env-changed={VARIABLE}");
    let Some(name) = std::env::var_os(VARIABLE).filter(|name| !name.is_empty()) else { return proved_archive(root) };
    let archive = root.join(name);
    watch(&archive);
    archive
}

fn main() {
    if told("CARGO_CFG_TARGET_ARCH") != "x86_64" {
        fail("The proved library is made for x86-64 alone.".to_string());
    }
    let manifest = PathBuf::from(told("CARGO_MANIFEST_DIR"));
    let Some(root) = manifest.parent() else { fail(format!("{} has no parent folder", manifest.display())) };
    let archive = archive(root);
    watch(&manifest.join("build.rs"));
    let folder = PathBuf::from(told("OUT_DIR"));
    let copy = folder.join("libgauzespar.a");
    if let Err(error) = fs::copy(&archive, &copy) {
        fail(format!("The archive {} could not be copied: {error}.", archive.display()));
    }
    println!("cargo:rustc-link-search=native={}", folder.display());
    println!("cargo:rustc-link-lib=static=gauzespar");
    println!("cargo:rustc-env=GAUZESPAR_ARCHIVE={}", copy.display());
}
