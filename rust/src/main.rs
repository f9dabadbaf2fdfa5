//! The command-line tool.

mod glow;

use glow::failure::Failure;
use std::ffi::OsString;
use std::io::Write;
use std::process::ExitCode;

const HELP: &str = "\
Gauzespar shows how light that enters tinted silicone leaves it again.

Usage: gauzespar glow RECIPE [--csv] [--svg FILE] [--quiet]
       gauzespar --help
       gauzespar --version

`gauzespar glow --help` says what a recipe is.
";

fn main() -> ExitCode {
    match run(std::env::args_os().skip(1).collect()) {
        Ok(()) => ExitCode::SUCCESS,
        Err(failure) => {
            // Standard error may be closed; the exit status still tells.
            let _ = std::io::stderr().write_all(failure.message.as_bytes());
            ExitCode::from(failure.status)
        }
    }
}

fn run(mut arguments: Vec<OsString>) -> Result<(), Failure> {
    if arguments.is_empty() {
        return Err(usage("expected a command"));
    }
    let command = arguments.remove(0);
    match command.to_str() {
        Some("glow") => glow::run(arguments),
        Some("--help" | "-h" | "help") => glow::print(HELP),
        Some("--version" | "-V") => glow::print(&format!("gauzespar {}\n", env!("CARGO_PKG_VERSION"))),
        _ => Err(usage(&format!("unknown command {}", command.to_string_lossy()))),
    }
}

fn usage(message: &str) -> Failure {
    Failure::usage(message, "gauzespar --help")
}
