//! What is printed, against what the library answers.

use crate::tool::{coefficients, csv_rows, examples, glow, out, run_on};
use gauzespar::{Coefficients, Record, Table, WorldRadius};
use std::path::Path;

const SIX: &str = "absorb 0.032 0.17 0.48\nscatter 0.74 0.88 1.01\neta 1.33\n";

/// The record that a printed table tells.
fn record(table: &str) -> Record {
    let line = table.lines().nth(1).unwrap();
    let words: Vec<&str> = line.split([' ', ',']).filter(|word| !word.is_empty()).collect();
    Record::new(words[0].parse().unwrap(), words[2].parse().unwrap(), words[5].parse().unwrap(), words[7].parse().unwrap())
}

/// A table with every row built, so that only the rows themselves can make a difference.
fn whole_table(record: Record) -> Table {
    let mut table = Table::start(record).unwrap();
    for row in 0..record.n {
        table.build(row).unwrap();
    }
    table
}

fn bits(values: [f32; 3]) -> [u32; 3] {
    values.map(f32::to_bits)
}

fn assert_as_the_library_answers(example: &Path) {
    let text = out(&run_on(example, &["--quiet"]));
    let rows = csv_rows(&out(&run_on(example, &["--quiet", "--csv"])));
    let (table, tint) = (whole_table(record(&text)), coefficients(&text));
    let printed: Vec<&str> = text.lines().skip(6).take(rows.len()).collect();
    for ([radius, red, green, blue], line) in rows.into_iter().zip(printed) {
        let expected = table.sr(tint, WorldRadius(radius)).unwrap();
        assert_eq!(bits([red, green, blue]), bits(expected), "{example:?} at {radius}");
        let shown: Vec<&str> = line.split_whitespace().collect();
        assert!((shown[0].parse::<f32>().unwrap() - radius).abs() <= 0.0005, "{line}");
        assert_eq!(shown[1..], expected.map(|value| format!("{value:.3e}")), "{example:?} at {radius}");
    }
}

#[test]
fn examples_are_as_the_library_answers() {
    for example in examples() {
        assert_as_the_library_answers(&example);
    }
}

/// The answers that the README gives for these coefficients.
#[test]
fn known_answer() {
    let rows = csv_rows(&out(&glow(format!("{SIX}radius 1 to 2 steps 1\n"), &["--csv"])));
    assert_eq!(rows[0], [1.0, 0.015957786, 0.010558161, 0.004966334]);
    assert_eq!(rows.len(), 2);
}

#[test]
fn radii() {
    let asked = |range: &str| -> Vec<f32> {
        let rows = csv_rows(&out(&glow(format!("{SIX}{range}\n"), &["--csv"])));
        rows.into_iter().map(|row| row[0]).collect()
    };
    assert_eq!(asked("radius 0.5 to 2 steps 3"), [0.5, 1.0, 1.5, 2.0]);
    assert_eq!(asked("radius 0 to 0.3 steps 3"), [0.0, 0.1, 0.2, 0.3]);
    let default = asked("");
    assert_eq!((default.len(), default[0], default[39]), (40, 0.2, 8.0));
    let inches = asked("unit in");
    assert_eq!((inches[0], inches[39]), ((0.2 / 25.4) as f32, (8.0 / 25.4) as f32));
}

/// The rows of a line such as `stood on 12 of 100 rows: 13-16 21-24 38-41`.
fn rows_told(line: &str) -> Vec<usize> {
    let (_, ranges) = line.rsplit_once("rows").unwrap();
    let numbers = |range: &str| -> Vec<usize> { range.split('-').map(|end| end.parse().unwrap()).collect() };
    let runs = ranges.trim_start_matches(':').split_whitespace().map(numbers);
    runs.flat_map(|ends| ends[0]..=*ends.last().unwrap()).collect()
}

fn assert_rows_are_the_needed_ones(text: &str) {
    let table = Table::start(record(text)).unwrap();
    let tint = coefficients(text);
    let line = |start: &str| text.lines().find(|line| line.trim_start().starts_with(start) && line.contains("rows")).unwrap();
    let needed = table.needed_rows(tint).unwrap();
    let stood = line("stood on");
    assert_eq!(rows_told(stood), needed, "{stood}");
    assert!(stood.starts_with(&format!("stood on {} of {} rows", needed.len(), table.record().n)), "{stood}");
    for (channel, name) in ["red ", "green ", "blue "].into_iter().enumerate() {
        let alike = Coefficients { sigma_a: [tint.sigma_a[channel]; 3], sigma_s: [tint.sigma_s[channel]; 3] };
        assert_eq!(rows_told(line(name)), table.needed_rows(alike).unwrap(), "{name}");
        assert!(line(name).contains(&format!("albedo {:.4},", tint.rho()[channel])));
    }
}

#[test]
fn rows_told_are_the_needed_ones() {
    for example in examples() {
        assert_rows_are_the_needed_ones(&out(&run_on(&example, &[])));
    }
    for recipe in
        ["absorb 0 0 0\nscatter 0 1 2\n", "absorb 1 1 0\nscatter 0 1 1\nrows 2\n", "absorb 1 2 3\nscatter 3 2 1\nrows 7\n"]
    {
        assert_rows_are_the_needed_ones(&out(&glow(recipe, &[])));
    }
}

#[test]
fn notes() {
    let note = |recipe: String| -> Vec<String> {
        let text = out(&glow(recipe, &[]));
        text.lines().filter_map(|line| line.strip_prefix("note: ")).map(String::from).collect()
    };
    assert_eq!(note(SIX.to_string()), [""; 0]);
    let zero = note(format!("{SIX}radius 0 to 1 steps 2\n"));
    assert!(zero.len() == 1 && zero[0].starts_with("At radius 0 itself the library answers 0"), "{zero:?}");
    // 30 radius nodes reach to 0.0025 times 1.2 to the 28, which is 0.4121 mean free paths.
    let beyond = note(format!("{SIX}radii 30\nradius 0.1 to 0.9 steps 8\n"));
    assert_eq!(
        beyond,
        [
            "In red the table reaches to 0.534 mm; radii beyond it (4 of 9) are 0.",
            "In green the table reaches to 0.392 mm; radii beyond it (6 of 9) are 0.",
            "In blue the table reaches to 0.277 mm; radii beyond it (7 of 9) are 0.",
            "The table ends before the light does in red, green, blue: more radii make the glow truer."
        ]
    );
    // Without absorption the light goes on even beyond the longest table.
    let longest = note(String::from("absorb 0 1 0\nscatter 1 1 1\n"));
    assert_eq!(longest, ["The table ends before the light does in red, blue, and no table has more radii."]);
    let built_in = note(String::from("base clear-silicone\n"));
    assert_eq!(built_in, ["The built-in pigments are illustrative: chosen by eye, not measured."]);
}

/// At radius 0 the answer is 0 and just above it is not; beyond the reach it is 0 again.
#[test]
fn ends_of_the_table() {
    let rows = csv_rows(&out(&glow(format!("{SIX}radii 30\nradius 0 to 1 steps 100\n"), &["--csv"])));
    assert_eq!(rows[0][1..], [0.0; 3]);
    assert!(rows[1][1..].iter().all(|value| *value > 1.0));
    let lit = |channel: usize| rows.iter().filter(|row| row[channel] > 0.0).count();
    assert_eq!([lit(1), lit(2), lit(3)], [53, 39, 27]);
    assert_eq!(rows[100][1..], [0.0; 3]);
}
