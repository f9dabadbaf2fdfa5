//! Numbers and rows in words, for text and picture alike.

use super::light::Light;
use super::recipe::Recipe;
use super::unit::Unit;
use gauzespar::Record;

pub const CHANNELS: [&str; 3] = ["red", "green", "blue"];

/// The share of the lit side's light at which the glow is said to end.
pub const FAINT: f64 = 0.1;

/// Ascending row numbers, with runs as ranges: `13-16 21 38-41`.
pub fn ranges(rows: &[usize]) -> String {
    let mut runs: Vec<(usize, usize)> = Vec::new();
    for &row in rows {
        match runs.last_mut() {
            Some(run) if run.1 + 1 == row => run.1 = row,
            _ => runs.push((row, row)),
        }
    }
    let shown: Vec<String> = runs.iter().map(|&(a, b)| if a == b { a.to_string() } else { format!("{a}-{b}") }).collect();
    shown.join(" ")
}

pub fn record(record: Record) -> String {
    format!("{} rows, {} radii, g {}, eta {}", record.n, record.m, record.g, record.eta)
}

pub fn stood_on(light: &Light) -> String {
    let rows = light.rows();
    format!("stood on {} of {} rows: {}", rows.len(), light.record().n, ranges(&rows))
}

/// What to keep in mind about the numbers and the picture.
pub fn cautions(recipe: &Recipe, light: &Light) -> Vec<String> {
    let mut cautions = Vec::new();
    let early: Vec<&str> =
        CHANNELS.into_iter().zip(light.profiles()).filter(|(_, p)| p.ends_early()).map(|(name, _)| name).collect();
    if !early.is_empty() {
        let most = light.record().m == Record::MAX_RADII;
        let advice = if most { ", and no table has more radii" } else { ": more radii make the glow truer" };
        cautions.push(format!("The table ends before the light does in {}{advice}.", early.join(", ")));
    }
    if recipe.tint.is_illustrative() {
        cautions.push(String::from("The built-in pigments are illustrative: chosen by eye, not measured."));
    }
    cautions
}

pub fn distance(distance: Option<f64>, unit: Unit) -> String {
    match distance {
        Some(value) => format!("{} {}", significant(value), unit.name),
        None => String::from("no light"),
    }
}

/// A number with three significant digits.
pub fn significant(value: f64) -> String {
    if value == 0.0 {
        return String::from("0");
    }
    let power = value.abs().log10().floor();
    if (-3.0..6.0).contains(&power) {
        format!("{value:.*}", (2.0 - power).max(0.0) as usize)
    } else {
        format!("{value:.2e}")
    }
}

#[cfg(test)]
mod tests {
    use super::*;

    #[test]
    fn runs_of_rows() {
        assert_eq!(ranges(&[13, 14, 15, 16, 21, 38, 39]), "13-16 21 38-39");
        assert_eq!(ranges(&[0]), "0");
        assert_eq!(ranges(&[]), "");
    }

    #[test]
    fn three_digits() {
        let shown = [2.6149, 0.026149, 261.49, 26149.0, 0.0, 3.0223e23, 1e-9].map(significant);
        assert_eq!(shown, ["2.61", "0.0261", "261", "26149", "0", "3.02e23", "1.00e-9"]);
    }
}
