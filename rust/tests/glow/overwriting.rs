//! An output that is the recipe itself is refused, and nothing is written.

use crate::tool::{err, scratch, tool};
use std::fs::{self, File, OpenOptions};
use std::os::unix::fs::symlink;
use std::path::PathBuf;
use std::process::{Command, Output, Stdio};

const RECIPE: &str = "absorb 0.032 0.17 0.48\nscatter 0.74 0.88 1.01\nrows 4\nradii 4\n";

/// A folder with one file, `keep.recipe`.
struct Folder(PathBuf);

impl Folder {
    fn new() -> Folder {
        let folder = Folder(scratch("folder"));
        fs::create_dir(&folder.0).unwrap();
        fs::write(folder.0.join("keep.recipe"), RECIPE).unwrap();
        folder
    }

    /// `gauzespar glow`, to be run in the folder.
    fn glow(&self, arguments: &[&str]) -> Command {
        let mut command = tool();
        command.arg("glow").args(arguments).current_dir(&self.0);
        command
    }

    fn read(&self, name: &str) -> String {
        fs::read_to_string(self.0.join(name)).unwrap()
    }

    fn appending(&self, name: &str) -> File {
        OpenOptions::new().append(true).open(self.0.join(name)).unwrap()
    }

    fn names(&self) -> Vec<String> {
        let mut names: Vec<String> =
            fs::read_dir(&self.0).unwrap().map(|entry| entry.unwrap().file_name().into_string().unwrap()).collect();
        names.sort();
        names
    }

    /// Requires that the command is refused and told so, and that it leaves the folder as it was.
    #[track_caller]
    fn assert_refused(&self, command: &mut Command, told: &str) {
        let names = self.names();
        let output = command.output().unwrap();
        assert_eq!((output.status.code(), err(&output).as_str()), (Some(1), told), "{command:?}");
        assert!(output.stdout.is_empty(), "{command:?}");
        assert_eq!((self.read("keep.recipe").as_str(), self.names()), (RECIPE, names), "{command:?}");
    }
}

impl Drop for Folder {
    fn drop(&mut self) {
        let _ = fs::remove_dir_all(&self.0);
    }
}

fn told(output: &str, recipe: &str) -> String {
    format!("{output}: this is the same file as the recipe {recipe}, which is never written to\n")
}

#[track_caller]
fn assert_shown(output: &Output, begin: &str) {
    assert_eq!(output.status.code(), Some(0), "{}", err(output));
    assert!(output.stdout.starts_with(begin.as_bytes()), "{output:?}");
}

/// By the same path, by another, by a link of either kind, whichever of the two names is the recipe's.
#[test]
fn the_picture_is_not_drawn_over_the_recipe() {
    let folder = Folder::new();
    symlink("keep.recipe", folder.0.join("symbolic")).unwrap();
    symlink("symbolic", folder.0.join("symbolic.svg")).unwrap();
    fs::hard_link(folder.0.join("keep.recipe"), folder.0.join("hard.svg")).unwrap();
    let whole = folder.0.join("keep.recipe").into_os_string().into_string().unwrap();
    let names = ["keep.recipe", "./keep.recipe", &whole, "symbolic", "symbolic.svg", "hard.svg"];
    for recipe in names {
        for picture in names {
            folder.assert_refused(&mut folder.glow(&[recipe, "--svg", picture]), &told(picture, recipe));
        }
    }
    folder.assert_refused(&mut folder.glow(&["--csv", "--svg", "hard.svg", "keep.recipe"]), &told("hard.svg", "keep.recipe"));
}

/// What was opened is compared: standard input can be a file that has a name.
#[test]
fn a_recipe_without_a_name() {
    let folder = Folder::new();
    let stdin = File::open(folder.0.join("keep.recipe")).unwrap();
    let mut command = folder.glow(&["/dev/stdin", "--svg", "keep.recipe"]);
    folder.assert_refused(command.stdin(stdin), &told("keep.recipe", "/dev/stdin"));
}

#[test]
fn nothing_is_appended_to_the_recipe() {
    let folder = Folder::new();
    let appended = told("standard output", "keep.recipe");
    for arguments in [&["keep.recipe"][..], &["keep.recipe", "--csv", "--quiet"], &["keep.recipe", "--svg", "new.svg"]] {
        folder.assert_refused(folder.glow(arguments).stdout(folder.appending("keep.recipe")), &appended);
    }
    fs::hard_link(folder.0.join("keep.recipe"), folder.0.join("hard")).unwrap();
    folder.assert_refused(folder.glow(&["keep.recipe"]).stdout(folder.appending("hard")), &appended);
    // Not even the message.
    folder.assert_refused(folder.glow(&["keep.recipe"]).stderr(folder.appending("keep.recipe")), "");
    let (stdout, stderr) = (folder.appending("keep.recipe"), folder.appending("keep.recipe"));
    folder.assert_refused(folder.glow(&["keep.recipe"]).stdout(stdout).stderr(stderr), "");
}

/// A shell that writes the output to the recipe has emptied it before the tool begins; the message tells why it is empty.
#[test]
fn a_recipe_that_the_shell_emptied() {
    let folder = Folder::new();
    let emptied = File::create(folder.0.join("keep.recipe")).unwrap();
    let output = folder.glow(&["keep.recipe"]).stdout(emptied).output().unwrap();
    assert_eq!((output.status.code(), err(&output)), (Some(1), told("standard output", "keep.recipe")));
    assert_eq!(folder.read("keep.recipe"), "");
}

/// A file is made, and one that is there is written over, even where it is like the recipe to the letter.
#[test]
fn other_files_are_written() {
    let folder = Folder::new();
    fs::copy(folder.0.join("keep.recipe"), folder.0.join("copy")).unwrap();
    symlink("to_be_made.svg", folder.0.join("symbolic.svg")).unwrap();
    for picture in ["new.svg", "copy", "symbolic.svg"] {
        assert_shown(&folder.glow(&["keep.recipe", "--quiet", "--svg", picture]).output().unwrap(), "Untitled\n");
        assert!(folder.read(picture).ends_with("</svg>\n"), "{picture}");
    }
    let kept = File::create(folder.0.join("kept.csv")).unwrap();
    assert_shown(&folder.glow(&["keep.recipe", "--csv"]).stdout(kept).output().unwrap(), "");
    assert!(folder.read("kept.csv").starts_with("radius,red,green,blue\n"));
    assert_eq!(folder.read("keep.recipe"), RECIPE);
    assert_eq!(folder.names(), ["copy", "keep.recipe", "kept.csv", "new.svg", "symbolic.svg", "to_be_made.svg"]);
}

/// /dev/null is no file that could be lost, not even as input and output at once: it is refused as an empty recipe only.
#[test]
fn nothing_is_lost_in_dev_null() {
    let folder = Folder::new();
    assert_shown(&folder.glow(&["keep.recipe", "--quiet", "--svg", "/dev/null"]).output().unwrap(), "Untitled\n");
    let mut quiet = folder.glow(&["keep.recipe", "--svg", "/dev/null"]);
    assert_shown(&quiet.stdout(Stdio::null()).stderr(Stdio::null()).output().unwrap(), "");
    let empty = folder.glow(&["/dev/null", "--svg", "/dev/null"]).stdout(Stdio::null()).output().unwrap();
    assert_eq!(empty.status.code(), Some(1));
    assert!(err(&empty).starts_with("/dev/null: expected a `base` line"), "{}", err(&empty));
}
