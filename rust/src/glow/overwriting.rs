//! No output may be the recipe itself, by whatever name: the recipe would be written over.

use super::failure::Failure;
use std::fs::{File, Metadata};
use std::io::{self, ErrorKind};
use std::os::fd::AsFd;
use std::os::unix::fs::MetadataExt;
use std::path::Path;

/// Refuses each output that is the recipe: the standard streams, and the files that are to be written.
pub fn refuse<'a>(recipe: &str, opened: &File, mut files: impl Iterator<Item = &'a Path>) -> Result<(), Failure> {
    let input = opened.metadata().map_err(|error| Failure::of(recipe, error))?;
    // Where standard error is the recipe a message would be written to it as well. The exit status still tells.
    if stream(io::stderr()).is_ok_and(|output| is_same(&input, &output)) {
        return Err(Failure::bad(String::new()));
    }
    let check = |output: &str, found: io::Result<Metadata>| match found {
        Ok(found) if is_same(&input, &found) => {
            Err(Failure::of(output, format!("this is the same file as the recipe {recipe}, which is never written to")))
        }
        Err(error) if error.kind() != ErrorKind::NotFound => Err(Failure::of(output, error)),
        _ => Ok(()),
    };
    check("standard output", stream(io::stdout()))?;
    files.try_for_each(|path| check(&path.display().to_string(), path.metadata()))
}

/// What a stream leads to. It is asked of a second handle, which is closed again.
fn stream(stream: impl AsFd) -> io::Result<Metadata> {
    File::from(stream.as_fd().try_clone_to_owned()?).metadata()
}

/// Whether two names lead to one file. A terminal, a pipe or /dev/null may be input and output at once.
fn is_same(input: &Metadata, output: &Metadata) -> bool {
    input.is_file() && (input.dev(), input.ino()) == (output.dev(), output.ino())
}
