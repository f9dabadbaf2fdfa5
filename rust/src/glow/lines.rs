//! The text of a recipe as lines of words.

use super::fault::{Fault, Place, LONGEST_LINE};
use std::str::FromStr;

#[derive(Clone, Copy, Debug)]
pub struct Word<'a> {
    pub text: &'a str,
    pub place: Place,
}

/// A line that holds more than a comment: its first word is the key.
#[derive(Debug)]
pub struct Entry<'a> {
    pub key: Word<'a>,
    pub values: Vec<Word<'a>>,
    line: &'a str,
}

impl<'a> Entry<'a> {
    /// All values as one text, with the blanks between them as they are.
    pub fn text(&self, what: &str) -> Result<Word<'a>, Fault> {
        let first = self.reader().word(what)?.place;
        let last = self.last().place;
        let (start, stop) = (first.column - 1, last.column - 1 + last.width);
        Ok(Word { text: &self.line[start..stop], place: Place { width: stop - start, ..first } })
    }

    pub fn reader(&self) -> Reader<'_> {
        Reader { entry: self, next: 0 }
    }

    fn last(&self) -> Word<'a> {
        *self.values.last().unwrap_or(&self.key)
    }

    /// Where a further value would stand: one blank behind the last word.
    fn end(&self) -> Place {
        let last = self.last().place;
        Place { line: last.line, column: last.column + last.width + 1, width: 1 }
    }
}

/// The bytes as text, if they are printable ASCII, blanks and ends of lines.
pub fn ascii(bytes: &[u8]) -> Result<&str, Fault> {
    let Some(at) = (0..bytes.len()).find(|&i| !is_allowed(bytes, i)) else {
        return Ok(std::str::from_utf8(bytes).expect("ASCII is UTF-8"));
    };
    let line_start = bytes[..at].iter().rposition(|&b| b == b'\n').map_or(0, |end| end + 1);
    let line = 1 + bytes[..at].iter().filter(|&&b| b == b'\n').count();
    let place = Place { line, column: at - line_start + 1, width: 1 };
    Err(Fault::at(place, format!("expected printable ASCII, found {}", character_at(&bytes[at..]))))
}

fn is_allowed(bytes: &[u8], at: usize) -> bool {
    match bytes[at] {
        b'\t' | b'\n' | b' '..=b'~' => true,
        b'\r' => bytes.get(at + 1) == Some(&b'\n'),
        _ => false,
    }
}

fn character_at(bytes: &[u8]) -> String {
    let longest = bytes.len().min(4);
    let decoded = (1..=longest).find_map(|n| std::str::from_utf8(&bytes[..n]).ok());
    match decoded.and_then(|text| text.chars().next()) {
        Some(c) => format!("`{}`", c.escape_debug()),
        None => format!("the byte 0x{:02X}", bytes[0]),
    }
}

/// The lines that hold more than blanks and a comment.
pub fn entries(source: &str) -> Result<Vec<Entry<'_>>, Fault> {
    let mut found = Vec::new();
    for (index, line) in source.lines().enumerate() {
        if line.len() > LONGEST_LINE {
            let place = Place { line: index + 1, column: LONGEST_LINE + 1, width: 1 };
            return Err(Fault::at(place, format!("expected a line of at most {LONGEST_LINE} characters, found {}", line.len())));
        }
        let mut words = words(line, index + 1).into_iter();
        if let Some(key) = words.next() {
            found.push(Entry { key, values: words.collect(), line });
        }
    }
    Ok(found)
}

fn words(line: &str, number: usize) -> Vec<Word<'_>> {
    let content = &line[..line.find('#').unwrap_or(line.len())];
    content
        .split([' ', '\t'])
        .filter(|text| !text.is_empty())
        .map(|text| {
            let start = text.as_ptr() as usize - line.as_ptr() as usize;
            Word { text, place: Place { line: number, column: start + 1, width: text.len() } }
        })
        .collect()
}

/// Reads the values of an entry one after the other.
pub struct Reader<'a> {
    entry: &'a Entry<'a>,
    next: usize,
}

impl<'a> Reader<'a> {
    /// The next word; `what` says in words what was expected.
    pub fn word(&mut self, what: &str) -> Result<Word<'a>, Fault> {
        let word = self.entry.values.get(self.next).copied();
        self.next += 1;
        word.ok_or_else(|| Fault::at(self.entry.end(), format!("expected {what}, found the end of the line")))
    }

    pub fn number<T: FromStr>(&mut self, what: &str) -> Result<(T, Word<'a>), Fault> {
        let word = self.word(what)?;
        let digits = word.text.chars().all(|c| c.is_ascii_digit() || "+-.eE".contains(c));
        match word.text.parse() {
            Ok(value) if digits => Ok((value, word)),
            _ => Err(unexpected(what, word)),
        }
    }

    /// A whole number; one that is too large for the machine is as large as can be.
    pub fn whole(&mut self, what: &str) -> Result<(usize, Word<'a>), Fault> {
        let word = self.word(what)?;
        if !word.text.chars().all(|c| c.is_ascii_digit()) {
            return Err(unexpected(what, word));
        }
        Ok((word.text.parse().unwrap_or(usize::MAX), word))
    }

    pub fn literal(&mut self, literal: &str) -> Result<(), Fault> {
        let what = format!("`{literal}`");
        let word = self.word(&what)?;
        if word.text == literal {
            Ok(())
        } else {
            Err(unexpected(&what, word))
        }
    }

    pub fn end(self) -> Result<(), Fault> {
        match self.entry.values.get(self.next) {
            None => Ok(()),
            Some(word) => Err(unexpected("the end of the line", *word)),
        }
    }
}

pub fn unexpected(what: &str, word: Word) -> Fault {
    Fault::at(word.place, format!("expected {what}, found `{}`", word.text))
}
