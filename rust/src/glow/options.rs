//! The command line of `gauzespar glow`.

use super::failure::Failure;
use std::ffi::OsString;
use std::path::{Path, PathBuf};

#[derive(Debug, Default, PartialEq)]
pub struct Options {
    pub recipe: PathBuf,
    pub csv: bool,
    pub quiet: bool,
    pub svg: Option<PathBuf>,
}

impl Options {
    /// The files that are written, beside standard output.
    pub fn written(&self) -> impl Iterator<Item = &Path> {
        self.svg.iter().map(PathBuf::as_path)
    }
}

#[derive(Debug, PartialEq)]
pub enum Wish {
    Help,
    Pigments,
    Glow(Options),
}

pub fn parse(arguments: Vec<OsString>) -> Result<Wish, Failure> {
    let mut options = Options::default();
    let mut recipes: Vec<OsString> = Vec::new();
    let mut arguments = arguments.into_iter();
    while let Some(argument) = arguments.next() {
        match argument.to_str() {
            Some("--help" | "-h") => return Ok(Wish::Help),
            Some("--pigments") => return Ok(Wish::Pigments),
            Some("--csv") => options.csv = true,
            Some("--quiet" | "-q") => options.quiet = true,
            Some("--svg") => options.svg = Some(arguments.next().ok_or_else(|| usage("--svg needs a file"))?.into()),
            Some("--") => recipes.extend(arguments.by_ref()),
            Some(text) if text.starts_with('-') => return Err(usage(&format!("unknown option {text}"))),
            _ => recipes.push(argument),
        }
    }
    options.recipe = only(recipes)?.into();
    Ok(Wish::Glow(options))
}

fn only(recipes: Vec<OsString>) -> Result<OsString, Failure> {
    match <[OsString; 1]>::try_from(recipes) {
        Ok([recipe]) => Ok(recipe),
        Err(recipes) => Err(usage(&format!("expected one recipe, found {}", recipes.len()))),
    }
}

fn usage(message: &str) -> Failure {
    Failure::usage(message, "gauzespar glow --help")
}
