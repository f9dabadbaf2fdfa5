//! Running the tool, and reading what it printed.

use gauzespar::Coefficients;
use std::path::{Path, PathBuf};
use std::process::{Command, Output};
use std::sync::atomic::{AtomicUsize, Ordering};

pub fn tool() -> Command {
    Command::new(env!("CARGO_BIN_EXE_gauzespar"))
}

/// A file name that no other test has.
pub fn scratch(ending: &str) -> PathBuf {
    static COUNT: AtomicUsize = AtomicUsize::new(0);
    let number = COUNT.fetch_add(1, Ordering::Relaxed);
    Path::new(env!("CARGO_TARGET_TMPDIR")).join(format!("glow-{}-{number}.{ending}", std::process::id()))
}

/// Runs `gauzespar glow` on a recipe that is written to a file of its own, and takes both files away again.
pub fn glow(recipe: impl AsRef<[u8]>, options: &[&str]) -> Output {
    let path = scratch("recipe");
    std::fs::write(&path, recipe).unwrap();
    let output = tool().arg("glow").arg(&path).args(options).output().unwrap();
    std::fs::remove_file(&path).unwrap();
    output
}

pub fn out(output: &Output) -> String {
    assert!(output.status.success(), "{}", err(output));
    String::from_utf8(output.stdout.clone()).unwrap()
}

pub fn err(output: &Output) -> String {
    String::from_utf8(output.stderr.clone()).unwrap()
}

/// The picture of a recipe.
pub fn svg(recipe: &str) -> String {
    let path = scratch("svg");
    out(&glow(recipe, &["--quiet", "--svg", path.to_str().unwrap()]));
    let text = std::fs::read_to_string(&path).unwrap();
    std::fs::remove_file(&path).unwrap();
    text
}

pub fn repository() -> PathBuf {
    Path::new(env!("CARGO_MANIFEST_DIR")).join("..")
}

/// The recipes that come with the tool.
pub fn examples() -> Vec<PathBuf> {
    let files = std::fs::read_dir(repository().join("recipes")).unwrap().map(|entry| entry.unwrap().path());
    let found: Vec<PathBuf> = files.filter(|path| path.extension().is_some_and(|ending| ending == "recipe")).collect();
    assert!(found.len() >= 4);
    found
}

pub fn run_on(recipe: &Path, options: &[&str]) -> Output {
    tool().arg("glow").arg(recipe).args(options).output().unwrap()
}

/// The six coefficients that a printed table tells.
pub fn coefficients(table: &str) -> Coefficients {
    let line = table.lines().find(|line| line.starts_with("absorb ")).unwrap();
    let numbers: Vec<f32> = line.split([' ', ',']).filter_map(|word| word.parse().ok()).collect();
    let three = |from: usize| [numbers[from], numbers[from + 1], numbers[from + 2]];
    Coefficients { sigma_a: three(0), sigma_s: three(3) }
}

/// The lines of a CSV, without the heading.
pub fn csv_rows(csv: &str) -> Vec<[f32; 4]> {
    let mut lines = csv.lines();
    assert_eq!(lines.next(), Some("radius,red,green,blue"));
    lines.map(four).collect()
}

fn four(line: &str) -> [f32; 4] {
    let numbers: Vec<f32> = line.split(',').map(|field| field.parse().unwrap()).collect();
    numbers.try_into().unwrap()
}
