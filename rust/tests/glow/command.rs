//! The command line: what is asked, exit statuses, and pipes that close early.

use crate::tool::{err, examples, glow, out, run_on, scratch, tool};
use std::process::Stdio;

const RECIPE: &str = "absorb 0.032 0.17 0.48\nscatter 0.74 0.88 1.01\neta 1.33\n";

fn status(arguments: &[&str]) -> (Option<i32>, String) {
    let output = tool().args(arguments).output().unwrap();
    (output.status.code(), err(&output))
}

#[test]
fn help_and_version() {
    let text = |arguments: &[&str]| out(&tool().args(arguments).output().unwrap());
    assert!(text(&["--help"]).contains("gauzespar glow RECIPE"));
    assert_eq!(text(&["--version"]), format!("gauzespar {}\n", env!("CARGO_PKG_VERSION")));
    let help = text(&["glow", "--help"]);
    for part in ["--csv", "--svg FILE", "--quiet", "--pigments", "chosen by eye and not measured", "Exit status"] {
        assert!(help.contains(part), "{part}");
    }
    let flowing = help.split_whitespace().collect::<Vec<_>>().join(" ");
    for limit in [
        "A recipe has no thickness.",
        "a flat body of the tint, even throughout and without end to the sides and in depth",
        "A thin part, such as the rim of an ear or an eyelid, lets light out at its back, or shows what lies behind it",
        "shows the tint that is meant for it, and not the part",
    ] {
        assert!(flowing.contains(limit), "{limit}");
    }
}

/// The recipe in the help can be used as it stands.
#[test]
fn the_help_shows_a_good_recipe() {
    let help = out(&tool().args(["glow", "--help"]).output().unwrap());
    let keys = ["name", "rows", "radii", "g", "eta", "unit", "base", "pigment", "define", "radius"];
    let is_line = |line: &&str| line.starts_with("  ") && keys.contains(&line.split_whitespace().next().unwrap_or(""));
    let lines: Vec<&str> = help.lines().filter(is_line).map(|line| line.get(..36).unwrap_or(line)).collect();
    assert_eq!(lines.len(), keys.len());
    let define = help.lines().find(|line| line.starts_with("  define")).unwrap();
    let recipe: Vec<&str> = lines.into_iter().map(|line| if line.starts_with("  define") { define } else { line }).collect();
    assert!(out(&glow(recipe.join("\n"), &["--quiet"])).starts_with("Warm ear rim\n"));
}

#[test]
fn wrong_commands() {
    let wrong: [(&[&str], &str); 8] = [
        (&[], "expected a command"),
        (&["shine"], "unknown command shine"),
        (&["glow"], "expected one recipe, found 0"),
        (&["glow", "a", "b"], "expected one recipe, found 2"),
        (&["glow", "--cvs", "a"], "unknown option --cvs"),
        (&["glow", "a", "--svg"], "--svg needs a file"),
        (&["glow", "--", "--csv", "a"], "expected one recipe, found 2"),
        (&["glow", "-x"], "unknown option -x"),
    ];
    for (arguments, message) in wrong {
        let (code, text) = status(arguments);
        assert_eq!(code, Some(2), "{arguments:?}");
        assert!(text.starts_with(&format!("gauzespar: {message}; see gauzespar ")), "{text}");
    }
}

#[test]
fn files_that_cannot_be_read_or_written() {
    let (code, text) = status(&["glow", "no/such.recipe"]);
    assert_eq!(code, Some(1));
    assert!(text.starts_with("no/such.recipe: "), "{text}");
    assert_eq!(status(&["glow", "."]).0, Some(1));
    let output = glow(RECIPE, &["--quiet", "--svg", "no/such/folder/a.svg"]);
    assert_eq!(output.status.code(), Some(1));
    assert!(output.stdout.is_empty());
    assert!(err(&output).starts_with("no/such/folder/a.svg: "));
}

/// After `--` an argument is a file, even if it looks like an option.
#[test]
fn a_recipe_named_like_an_option() {
    let (code, text) = status(&["glow", "--", "--csv"]);
    assert_eq!((code, text.starts_with("--csv: ")), (Some(1), true), "{text}");
}

#[test]
fn standard_error() {
    assert_eq!(err(&glow(RECIPE, &["--quiet"])), "");
    assert_eq!(err(&glow(RECIPE, &["--quiet", "--csv"])), "");
    assert_eq!(err(&glow(RECIPE, &[])), "built 12 rows\n");
    let remarks = err(&glow(RECIPE, &["--csv"]));
    assert!(remarks.contains("stood on 12 of 100 rows: 13-16 21-24 38-41\n"), "{remarks}");
}

/// A pipe that nobody reads ends the output and is no failure; a picture is there all the same.
#[test]
fn closed_pipes() {
    let picture = scratch("svg");
    let example = &examples()[0];
    let closed = || {
        let (reader, writer) = std::io::pipe().unwrap();
        drop(reader);
        Stdio::from(writer)
    };
    let output = tool().arg("glow").arg(example).arg("--svg").arg(&picture).stdout(closed()).output().unwrap();
    assert_eq!((output.status.code(), err(&output).contains("panicked")), (Some(0), false));
    assert!(std::fs::metadata(&picture).unwrap().len() > 1000);
    std::fs::remove_file(picture).unwrap();
    let help = tool().args(["glow", "--help"]).stdout(closed()).status().unwrap();
    assert_eq!(help.code(), Some(0));
    let deaf = tool().arg("glow").arg(example).stderr(closed()).output().unwrap();
    assert_eq!(deaf.stdout, run_on(example, &[]).stdout);
    let wrong = tool().args(["glow", "no/such.recipe"]).stderr(closed()).status().unwrap();
    assert_eq!(wrong.code(), Some(1));
}

/// Output that is lost for another reason than a closed pipe is a failure.
#[test]
#[cfg(target_os = "linux")]
fn full_disk() {
    let full = std::fs::OpenOptions::new().write(true).open("/dev/full").unwrap();
    let output = tool().arg("glow").arg(&examples()[0]).stdout(full).output().unwrap();
    assert_eq!(output.status.code(), Some(1));
    assert!(err(&output).contains("standard output: "));
}
