//! The six coefficients of a recipe: given as they are, or mixed from a base and pigments.

use super::fault::{Fault, Place};
use super::lines::{unexpected, Entry, Reader, Word};
use super::nearest::nearest;
use super::pigments::{built_in, Strength, BUILT_IN};
use super::recipe::{given_twice, Book};
use super::unit::Unit;
use gauzespar::Coefficients;
use std::ops::RangeInclusive;

pub struct Tint {
    pub coefficients: Coefficients,
    pub source: Source,
}

pub enum Source {
    /// The six numbers stand in the recipe, at these places: absorption, then scattering.
    Given([[Place; 3]; 2]),
    /// A base and pigments; `illustrative` if one of them is built in.
    Mixed { illustrative: bool },
}

impl Tint {
    pub fn is_illustrative(&self) -> bool {
        matches!(self.source, Source::Mixed { illustrative: true })
    }
}

/// Grams in 100 grams of base. Above this no mixture is dilute.
const AMOUNT: RangeInclusive<f64> = 0.0..=10.0;

pub fn tint(book: &Book, unit: Unit) -> Result<Tint, Fault> {
    match (book.one("absorb"), book.one("scatter")) {
        (Some(absorb), Some(scatter)) => given(book, absorb, scatter),
        (Some(one), None) => Err(Fault::at(one.key.place, "`absorb` needs a `scatter` line as well")),
        (None, Some(one)) => Err(Fault::at(one.key.place, "`scatter` needs an `absorb` line as well")),
        (None, None) => mixed(book, unit),
    }
}

fn given(book: &Book, absorb: &Entry, scatter: &Entry) -> Result<Tint, Fault> {
    if let Some(other) = book.one("base").or(book.one("pigment")) {
        let key = other.key;
        let line = absorb.key.place.line;
        return Err(Fault::at(key.place, format!("`{}` cannot stand beside `absorb` and `scatter` (line {line})", key.text)));
    }
    let (sigma_a, absorb_places) = three_alone(absorb)?;
    let (sigma_s, scatter_places) = three_alone(scatter)?;
    Ok(Tint { coefficients: Coefficients { sigma_a, sigma_s }, source: Source::Given([absorb_places, scatter_places]) })
}

fn three_alone(entry: &Entry) -> Result<([f32; 3], [Place; 3]), Fault> {
    let mut reader = entry.reader();
    let numbers = three(&mut reader, entry.key.text)?;
    reader.end()?;
    Ok((numbers.map(|(value, _)| value), numbers.map(|(_, word)| word.place)))
}

fn three<'a, T: std::str::FromStr>(reader: &mut Reader<'a>, key: &str) -> Result<[(T, Word<'a>); 3], Fault> {
    let mut channel = |name: &str| reader.number(&format!("a number for {key} in {name}"));
    Ok([channel("red")?, channel("green")?, channel("blue")?])
}

fn mixed(book: &Book, unit: Unit) -> Result<Tint, Fault> {
    let shelf = Shelf { defined: definitions(book)?, unit };
    let Some(base) = book.one("base") else {
        return Err(match book.one("pigment") {
            Some(pigment) => Fault::at(pigment.key.place, "`pigment` needs a `base` line as well"),
            None => Fault::of_file("expected a `base` line, or `absorb` and `scatter` lines, found none of them"),
        });
    };
    let mut reader = base.reader();
    let mut parts = vec![(reader.word("the name of a base")?, 1.0)];
    reader.end()?;
    parts.append(&mut pigments(book)?);
    let mut mixture = Strength::NONE;
    let mut illustrative = false;
    for (name, amount) in parts {
        let (strength, is_built_in) = shelf.find(name)?;
        mixture = mixture.plus(strength.times(amount));
        illustrative |= is_built_in;
    }
    let single = |values: [f64; 3]| values.map(|value| value as f32);
    let coefficients = Coefficients { sigma_a: single(mixture.absorb), sigma_s: single(mixture.scatter) };
    Ok(Tint { coefficients, source: Source::Mixed { illustrative } })
}

fn pigments<'a>(book: &Book<'a>) -> Result<Vec<(Word<'a>, f64)>, Fault> {
    let mut found: Vec<(Word, f64)> = Vec::new();
    for entry in book.all("pigment") {
        let mut reader = entry.reader();
        let name = reader.word("the name of a pigment")?;
        let (amount, word) = reader.number(&format!("a number for the amount of {}", name.text))?;
        reader.end()?;
        if !AMOUNT.contains(&amount) {
            let what = format!("an amount from {} to {} (grams in 100 grams of base)", AMOUNT.start(), AMOUNT.end());
            return Err(unexpected(&what, word));
        }
        if let Some((first, _)) = found.iter().find(|(other, _)| other.text == name.text) {
            return Err(given_twice(name, *first));
        }
        found.push((name, amount));
    }
    Ok(found)
}

fn definitions<'a>(book: &Book<'a>) -> Result<Vec<(Word<'a>, Strength)>, Fault> {
    let mut found: Vec<(Word, Strength)> = Vec::new();
    for entry in book.all("define") {
        let mut reader = entry.reader();
        let name = reader.word("a name to define")?;
        let absorb = positive_three(&mut reader, "absorb")?;
        let scatter = positive_three(&mut reader, "scatter")?;
        reader.end()?;
        if let Some((first, _)) = found.iter().find(|(other, _)| other.text == name.text) {
            return Err(given_twice(name, *first));
        }
        found.push((name, Strength { absorb, scatter }));
    }
    Ok(found)
}

fn positive_three(reader: &mut Reader, key: &str) -> Result<[f64; 3], Fault> {
    reader.literal(key)?;
    let numbers = three(reader, key)?;
    match numbers.iter().find(|(value, _)| *value < 0.0) {
        Some((_, word)) => Err(unexpected("a number that is 0 or more", *word)),
        None => Ok(numbers.map(|(value, _)| value)),
    }
}

/// The materials that a recipe can name: its own, and the built-in ones where it does not define the name.
struct Shelf<'a> {
    defined: Vec<(Word<'a>, Strength)>,
    unit: Unit,
}

impl Shelf<'_> {
    /// The strength in 1 over the recipe's unit, and whether it is a built-in one.
    fn find(&self, name: Word) -> Result<(Strength, bool), Fault> {
        if let Some((_, strength)) = self.defined.iter().find(|(word, _)| word.text == name.text) {
            return Ok((*strength, false));
        }
        match built_in(name.text) {
            Some(material) => Ok((material.strength.times(self.unit.millimetres), true)),
            None => Err(self.unknown(name)),
        }
    }

    fn unknown(&self, name: Word) -> Fault {
        let names: Vec<&str> = BUILT_IN.iter().map(|m| m.name).chain(self.defined.iter().map(|(word, _)| word.text)).collect();
        let hint = match nearest(name.text, names.iter().copied()) {
            Some(known) => format!("did you mean `{known}`?"),
            None => format!("the known ones are {}", names.join(", ")),
        };
        Fault::at(name.place, format!("unknown material `{}`; {hint}", name.text))
    }
}
