//! The library as C and C++ see it: include/gauzespar.h, and a C program over the same archive.
use std::path::{Path, PathBuf};
use std::process::{Command, Output};

#[path = "shared/skip.rs"]
mod skip;

use skip::skip;

/// The archive that this package is linked with.
const ARCHIVE: &str = env!("GAUZESPAR_ARCHIVE");

const STRICT: [&str; 5] = ["-std=c99", "-Wall", "-Wextra", "-Werror", "-pedantic"];
const SANITIZERS: [&str; 2] = ["-fsanitize=address,undefined", "-fno-sanitize-recover=all"];

fn package() -> &'static Path {
    Path::new(env!("CARGO_MANIFEST_DIR"))
}

fn include() -> PathBuf {
    package().join("../include")
}

/// Where a test may write.
fn scratch(name: &str) -> PathBuf {
    Path::new(env!("CARGO_TARGET_TMPDIR")).join(name)
}

fn require_success(what: &str, output: &Output) {
    let wrote = [&output.stdout, &output.stderr].map(|bytes| String::from_utf8_lossy(bytes)).concat();
    assert!(output.status.success(), "{what}: {}\n{wrote}", output.status);
}

/// Compiles tests/c/calls.c, links it with the archive, and runs it.
fn run_calls(program: &str, flags: &[&str]) {
    let program = scratch(program);
    let compiled = Command::new("cc")
        .args(STRICT)
        .args(flags)
        .arg("-I")
        .arg(include())
        .arg(package().join("tests/c/calls.c"))
        .arg(ARCHIVE)
        .arg("-o")
        .arg(&program)
        .output()
        .expect("a C compiler is called cc");
    require_success("the C compiler", &compiled);
    require_success("calls.c", &Command::new(&program).output().expect("the program was just made"));
}

#[test]
fn calls_from_c() {
    run_calls("calls", &[]);
}

#[test]
fn calls_from_optimised_c() {
    run_calls("calls_optimised", &["-O2"]);
}

/// Whether the C compiler can link a program with the sanitizers.
fn has_sanitizers() -> bool {
    let source = scratch("nothing.c");
    std::fs::write(&source, "int main(void) { return 0; }\n").unwrap();
    let program = scratch("nothing");
    let compiled = Command::new("cc").args(SANITIZERS).arg(&source).arg("-o").arg(&program).output();
    compiled.is_ok_and(|output| output.status.success()) && Command::new(&program).status().is_ok_and(|status| status.success())
}

#[test]
fn calls_from_c_with_sanitizers() {
    if has_sanitizers() {
        run_calls("calls_sanitized", &SANITIZERS);
    } else {
        skip("the C compiler has no sanitizers");
    }
}

#[test]
fn the_header_is_cpp_too() {
    let header = include().join("gauzespar.h");
    let flags = ["-x", "c++", "-Wall", "-Wextra", "-Werror", "-fsyntax-only"];
    match Command::new("c++").args(flags).arg(header).output() {
        Ok(output) => require_success("the C++ compiler", &output),
        Err(_) => skip("there is no C++ compiler called c++"),
    }
}
