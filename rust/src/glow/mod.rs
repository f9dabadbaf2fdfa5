//! `gauzespar glow RECIPE`: how a tint glows.

mod colour;
mod edge;
pub mod failure;
mod fault;
mod light;
mod lines;
mod mixture;
mod nearest;
mod options;
mod overwriting;
mod picture;
mod pigments;
mod progress;
mod recipe;
mod refused;
mod report;
mod scale;
mod svg;
mod unit;
mod words;

use failure::Failure;
use light::Light;
use options::{Options, Wish};
use recipe::Recipe;
use std::ffi::OsString;
use std::fs::File;
use std::io::{Read, Write};
use std::path::Path;

pub const HELP: &str = include_str!("help.txt");

/// A recipe is a small text; more than this is some other file.
const LARGEST_RECIPE: u64 = 65_536;

pub fn run(arguments: Vec<OsString>) -> Result<(), Failure> {
    match options::parse(arguments)? {
        Wish::Help => print(HELP),
        Wish::Pigments => print(&pigments::as_recipe_lines()),
        Wish::Glow(options) => glow(&options),
    }
}

fn glow(options: &Options) -> Result<(), Failure> {
    let file = options.recipe.display().to_string();
    let opened = File::open(&options.recipe).map_err(|error| Failure::of(&file, error))?;
    overwriting::refuse(&file, &opened, options.written())?;
    let bytes = read(opened).map_err(|reason| Failure::of(&file, reason))?;
    let source = String::from_utf8_lossy(&bytes);
    let recipe = recipe::parse(&bytes).map_err(|fault| Failure::bad(fault.told(&file, &source)))?;
    answer(options, &recipe).map_err(|stop| match stop {
        Stop::Refused(refusal) => Failure::bad(refused::fault(refusal, &recipe).told(&file, &source)),
        Stop::Failed(failure) => failure,
    })
}

enum Stop {
    Refused(gauzespar::Refusal),
    Failed(Failure),
}

impl From<gauzespar::Refusal> for Stop {
    fn from(refusal: gauzespar::Refusal) -> Stop {
        Stop::Refused(refusal)
    }
}

impl From<Failure> for Stop {
    fn from(failure: Failure) -> Stop {
        Stop::Failed(failure)
    }
}

/// Everything is computed and the picture is written before the first line is printed, so that a pipe that closes early loses
/// no more than it has to.
fn answer(options: &Options, recipe: &Recipe) -> Result<(), Stop> {
    let light = Light::open(recipe.record, recipe.tint.coefficients, |step| {
        if !options.quiet {
            progress::tell(step);
        }
    })?;
    let heading = report::heading(recipe, &light);
    let remarks = report::remarks(recipe, &light)?;
    let csv = options.csv.then(|| report::csv(recipe, &light)).transpose()?;
    let table = report::table(recipe, &light)?;
    if let Some(path) = &options.svg {
        write(path, &picture::draw(recipe, &light)?)?;
    }
    match csv {
        None => print(&format!("{heading}\n{table}\n{remarks}"))?,
        Some(csv) => {
            print(&csv)?;
            if !options.quiet {
                let _ = std::io::stderr().write_all(format!("{heading}{remarks}").as_bytes());
            }
        }
    }
    Ok(())
}

fn read(file: File) -> Result<Vec<u8>, String> {
    let mut bytes = Vec::new();
    file.take(LARGEST_RECIPE + 1).read_to_end(&mut bytes).map_err(|error| error.to_string())?;
    if bytes.len() as u64 > LARGEST_RECIPE {
        return Err(format!("expected a recipe of at most {LARGEST_RECIPE} bytes, found a larger file"));
    }
    Ok(bytes)
}

fn write(path: &Path, text: &str) -> Result<(), Failure> {
    std::fs::write(path, text).map_err(|error| Failure::of(path.display(), error))
}

/// Prints to standard output. Who closes the pipe has read enough.
pub fn print(text: &str) -> Result<(), Failure> {
    let mut out = std::io::stdout().lock();
    match out.write_all(text.as_bytes()).and_then(|()| out.flush()) {
        Err(error) if error.kind() != std::io::ErrorKind::BrokenPipe => Err(Failure::of("standard output", error)),
        _ => Ok(()),
    }
}
