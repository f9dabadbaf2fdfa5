//! Recipes: a small text format, described in recipes/README.md.

use super::fault::{Fault, Place};
use super::lines::{ascii, entries, unexpected, Entry, Reader, Word};
use super::mixture::{self, Tint};
use super::nearest::nearest;
use super::unit::{Unit, MILLIMETRE, UNITS};
use gauzespar::Record;
use std::ops::RangeInclusive;

pub struct Recipe {
    pub name: String,
    pub record: Record,
    pub unit: Unit,
    pub tint: Tint,
    pub range: Range,
    pub places: RecordPlaces,
}

/// Where the recipe gives the numbers of the record, if it does.
#[derive(Default)]
pub struct RecordPlaces {
    pub rows: Option<Place>,
    pub radii: Option<Place>,
    pub g: Option<Place>,
    pub eta: Option<Place>,
}

/// The radii to ask for: both ends, and `steps` equal steps between them.
#[derive(Clone, Copy, Debug, PartialEq)]
pub struct Range {
    pub from: f64,
    pub to: f64,
    pub steps: usize,
}

impl Range {
    pub fn radii(&self) -> Vec<f32> {
        let step = (self.to - self.from) / self.steps as f64;
        (0..=self.steps).map(|i| if i == self.steps { self.to as f32 } else { (self.from + step * i as f64) as f32 }).collect()
    }
}

const KEYS: [&str; 12] = ["name", "rows", "radii", "g", "eta", "unit", "base", "pigment", "define", "absorb", "scatter", "radius"];
/// Keys that stand once for each material that they name; the others stand once.
const REPEATED_KEYS: [&str; 2] = ["pigment", "define"];

const DEFAULT_NAME: &str = "Untitled";
const DEFAULT_ROWS: usize = 100;
const DEFAULT_RADII: usize = 64;
const DEFAULT_G: f32 = 0.0;
const DEFAULT_ETA: f32 = 1.41;
/// In millimetres. It begins above 0, where the library answers 0 (see recipes/README.md).
const DEFAULT_RANGE: Range = Range { from: 0.2, to: 8.0, steps: 39 };

const LONGEST_NAME: usize = 60;
const RADII_ASKED: RangeInclusive<f64> = 0.0..=100_000.0;
const SHORTEST_RANGE: f64 = 0.001;
const STEPS: RangeInclusive<usize> = 1..=1000;

pub fn parse(bytes: &[u8]) -> Result<Recipe, Fault> {
    let entries = entries(ascii(bytes)?)?;
    for (index, entry) in entries.iter().enumerate() {
        check_key(entry, &entries[..index])?;
    }
    let book = Book { entries: &entries };
    let (unit, _) = book.value("unit", MILLIMETRE, unit)?;
    let (rows, rows_place) = book.value("rows", DEFAULT_ROWS, |r| r.whole("a whole number for rows"))?;
    let (radii, radii_place) = book.value("radii", DEFAULT_RADII, |r| r.whole("a whole number for radii"))?;
    let (g, g_place) = book.value("g", DEFAULT_G, |r| r.number("a number for g"))?;
    let (eta, eta_place) = book.value("eta", DEFAULT_ETA, |r| r.number("a number for eta"))?;
    Ok(Recipe {
        name: name(&book)?,
        record: Record::new(rows, radii, g, eta),
        unit,
        tint: mixture::tint(&book, unit)?,
        range: range(&book, unit)?,
        places: RecordPlaces { rows: rows_place, radii: radii_place, g: g_place, eta: eta_place },
    })
}

fn check_key(entry: &Entry, before: &[Entry]) -> Result<(), Fault> {
    let key = entry.key;
    if !KEYS.contains(&key.text) {
        let hint = match nearest(key.text, KEYS.into_iter()) {
            Some(known) => format!("did you mean `{known}`?"),
            None => format!("the keys are {}", KEYS.join(", ")),
        };
        return Err(Fault::at(key.place, format!("unknown key `{}`; {hint}", key.text)));
    }
    match before.iter().find(|other| other.key.text == key.text) {
        Some(first) if !REPEATED_KEYS.contains(&key.text) => Err(given_twice(key, first.key)),
        _ => Ok(()),
    }
}

/// The fault of a key or a name that may stand once.
pub fn given_twice(word: Word, first: Word) -> Fault {
    Fault::at(word.place, format!("`{}` is given twice, first in line {}", word.text, first.place.line))
}

/// The entries of a recipe by their keys.
pub struct Book<'a> {
    entries: &'a [Entry<'a>],
}

impl<'a> Book<'a> {
    pub fn one(&self, key: &str) -> Option<&'a Entry<'a>> {
        self.entries.iter().find(|entry| entry.key.text == key)
    }

    pub fn all(&self, key: &'a str) -> impl Iterator<Item = &'a Entry<'a>> {
        self.entries.iter().filter(move |entry| entry.key.text == key)
    }

    /// The one value of a key and its place, or what holds where the key is not given.
    fn value<T>(
        &self,
        key: &str,
        default: T,
        read: impl FnOnce(&mut Reader<'a>) -> Result<(T, Word<'a>), Fault>,
    ) -> Result<(T, Option<Place>), Fault> {
        let Some(entry) = self.one(key) else {
            return Ok((default, None));
        };
        let mut reader = entry.reader();
        let (value, word) = read(&mut reader)?;
        reader.end()?;
        Ok((value, Some(word.place)))
    }
}

fn name(book: &Book) -> Result<String, Fault> {
    let Some(entry) = book.one("name") else {
        return Ok(String::from(DEFAULT_NAME));
    };
    let what = format!("a name of at most {LONGEST_NAME} characters");
    let text = entry.text(&what)?;
    if text.text.len() > LONGEST_NAME {
        return Err(unexpected(&what, text));
    }
    Ok(text.text.to_string())
}

fn unit<'a>(reader: &mut Reader<'a>) -> Result<(Unit, Word<'a>), Fault> {
    let what = format!("a unit, one of {}", UNITS.map(|unit| unit.name).join(", "));
    let word = reader.word(&what)?;
    match UNITS.into_iter().find(|unit| unit.name == word.text) {
        Some(unit) => Ok((unit, word)),
        None => Err(unexpected(&what, word)),
    }
}

fn range(book: &Book, unit: Unit) -> Result<Range, Fault> {
    let scaled = |millimetres: f64| millimetres / unit.millimetres;
    let default = Range { from: scaled(DEFAULT_RANGE.from), to: scaled(DEFAULT_RANGE.to), ..DEFAULT_RANGE };
    let Some(entry) = book.one("radius") else {
        return Ok(default);
    };
    let mut reader = entry.reader();
    let from = radius(&mut reader, "a number for the first radius")?;
    reader.literal("to")?;
    let to = radius(&mut reader, "a number for the last radius")?;
    reader.literal("steps")?;
    let (steps, steps_word) = reader.whole("a whole number of steps")?;
    reader.end()?;
    if to.0 - from.0 < SHORTEST_RANGE {
        return Err(unexpected(&format!("a last radius at least {SHORTEST_RANGE} above the first"), to.1));
    }
    if !STEPS.contains(&steps) {
        return Err(unexpected(&format!("{} to {} steps", STEPS.start(), STEPS.end()), steps_word));
    }
    Ok(Range { from: from.0, to: to.0, steps })
}

fn radius<'a>(reader: &mut Reader<'a>, what: &str) -> Result<(f64, Word<'a>), Fault> {
    let (value, word) = reader.number(what)?;
    if RADII_ASKED.contains(&value) {
        Ok((value, word))
    } else {
        Err(unexpected(&format!("a radius from {} to {}", RADII_ASKED.start(), RADII_ASKED.end()), word))
    }
}
