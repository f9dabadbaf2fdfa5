//! What is wrong with a recipe, and where.

/// A stretch of one line. Lines and columns count from 1, columns in characters.
#[derive(Clone, Copy, Debug, PartialEq)]
pub struct Place {
    pub line: usize,
    pub column: usize,
    pub width: usize,
}

#[derive(Debug, PartialEq)]
pub struct Fault {
    pub place: Option<Place>,
    pub message: String,
}

/// Longer lines are shown cut, so that a file that is no recipe does not fill the screen.
pub const LONGEST_LINE: usize = 200;

impl Fault {
    pub fn at(place: Place, message: impl Into<String>) -> Fault {
        Fault { place: Some(place), message: message.into() }
    }

    /// A fault of the whole file and not of one line.
    pub fn of_file(message: impl Into<String>) -> Fault {
        Fault { place: None, message: message.into() }
    }

    /// `file:line:column: message`, and under it the line with carets below the place.
    pub fn told(&self, file: &str, source: &str) -> String {
        let Some(place) = self.place else {
            return format!("{file}: {}\n", self.message);
        };
        let line = source.lines().nth(place.line - 1).unwrap_or("");
        let shown: String = line.chars().take(LONGEST_LINE).map(shown_as).collect();
        let before: String = line.chars().take(place.column - 1).map(|c| if c == '\t' { '\t' } else { ' ' }).collect();
        let carets = "^".repeat(place.width.max(1));
        format!("{file}:{}:{}: {}\n    {shown}\n    {before}{carets}\n", place.line, place.column, self.message)
    }
}

/// Control characters could move the cursor of a terminal.
fn shown_as(c: char) -> char {
    if c.is_control() && c != '\t' {
        '?'
    } else {
        c
    }
}
