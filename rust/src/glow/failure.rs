//! Why the tool ends without an answer.

use std::fmt::Display;

pub struct Failure {
    pub status: u8,
    /// What to tell the user, with its line end.
    pub message: String,
}

impl Failure {
    /// The recipe is wrong or refused, or a file cannot be read or written, or may not be.
    pub fn bad(message: String) -> Failure {
        Failure { status: 1, message }
    }

    /// Something is the matter with a file or a stream.
    pub fn of(name: impl Display, reason: impl Display) -> Failure {
        Failure::bad(format!("{name}: {reason}\n"))
    }

    /// The command is wrong.
    pub fn usage(message: &str, help: &str) -> Failure {
        Failure { status: 2, message: format!("gauzespar: {message}; see {help}\n") }
    }
}
