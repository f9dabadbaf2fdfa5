//! What a wrong recipe is told: the place, what was expected, and the line.

use crate::tool::{err, glow};

const GOOD: &str = "base clear-silicone\n";

/// The message of a recipe with exit status 1, without the file's name.
fn message(recipe: impl AsRef<[u8]>) -> String {
    let output = glow(recipe, &["--quiet"]);
    assert_eq!(output.status.code(), Some(1));
    assert!(output.stdout.is_empty());
    let text = err(&output);
    let (file, message) = text.split_once(".recipe:").unwrap_or_else(|| panic!("no file in {text}"));
    assert!(!file.contains('\n'), "{text}");
    message.to_string()
}

/// The recipe is a good one with `line` as its second line.
#[track_caller]
fn assert_fault(line: &str, expected: &str) {
    let found = message(format!("{GOOD}{line}\nname ok\n"));
    assert_eq!(found.lines().next(), Some(expected), "{line}");
    assert_eq!(found.lines().nth(1), Some(format!("    {line}").as_str()));
}

#[test]
fn the_line_is_shown_with_carets() {
    let found = message("base clear-silicone\n  eta\t 1,41 # silicone\n");
    assert_eq!(found, "2:8: expected a number for eta, found `1,41`\n      eta\t 1,41 # silicone\n         \t ^^^^\n");
}

#[test]
fn numbers() {
    assert_fault("eta", "2:5: expected a number for eta, found the end of the line");
    assert_fault("eta nan", "2:5: expected a number for eta, found `nan`");
    assert_fault("g inf", "2:3: expected a number for g, found `inf`");
    assert_fault("g 0x1", "2:3: expected a number for g, found `0x1`");
    assert_fault("g -", "2:3: expected a number for g, found `-`");
    assert_fault("eta 1.4 1.5", "2:9: expected the end of the line, found `1.5`");
    assert_fault("rows 2.5", "2:6: expected a whole number for rows, found `2.5`");
    assert_fault("rows -5", "2:6: expected a whole number for rows, found `-5`");
    assert_fault("radii many", "2:7: expected a whole number for radii, found `many`");
}

#[test]
fn keys() {
    assert_fault("roes 100", "2:1: unknown key `roes`; did you mean `rows`?");
    assert_fault("Eta 1.4", "2:1: unknown key `Eta`; did you mean `eta`?");
    assert_fault("  pigmnet rouge 1", "2:3: unknown key `pigmnet`; did you mean `pigment`?");
    assert_fault(
        "temperature 20",
        "2:1: unknown key `temperature`; \
         the keys are name, rows, radii, g, eta, unit, base, pigment, define, absorb, scatter, radius",
    );
    assert_fault("base milky-silicone", "2:1: `base` is given twice, first in line 1");
    assert!(message("g 0\n\nbase clear-silicone\n g 0\n").starts_with("4:2: `g` is given twice, first in line 1\n"));
}

#[test]
fn names_and_units() {
    assert_fault("unit furlong", "2:6: expected a unit, one of mm, cm, um, in, found `furlong`");
    assert_fault("unit", "2:6: expected a unit, one of mm, cm, um, in, found the end of the line");
    let long = "x".repeat(61);
    let found = message(format!("name {long}\n{GOOD}"));
    assert!(found.starts_with(&format!("1:6: expected a name of at most 60 characters, found `{long}`\n")), "{found}");
    assert!(message(format!("name # none\n{GOOD}")).starts_with("1:6: expected a name of at most 60 characters, found the end"));
}

#[test]
fn ranges() {
    assert_fault("radius", "2:8: expected a number for the first radius, found the end of the line");
    assert_fault("radius 1 2", "2:10: expected `to`, found `2`");
    assert_fault("radius 1 to 2", "2:15: expected `steps`, found the end of the line");
    assert_fault("radius 1 to 2 steps x", "2:21: expected a whole number of steps, found `x`");
    assert_fault("radius 1 to 2 steps 0", "2:21: expected 1 to 1000 steps, found `0`");
    assert_fault("radius 1 to 2 steps 1001", "2:21: expected 1 to 1000 steps, found `1001`");
    assert_fault("radius 1 to 2 steps 3 4", "2:23: expected the end of the line, found `4`");
    assert_fault("radius -1 to 2 steps 3", "2:8: expected a radius from 0 to 100000, found `-1`");
    assert_fault("radius 0 to 1e6 steps 3", "2:13: expected a radius from 0 to 100000, found `1e6`");
    assert_fault("radius 2 to 2 steps 3", "2:13: expected a last radius at least 0.001 above the first, found `2`");
}

#[test]
fn pigments() {
    assert_fault("pigment", "2:9: expected the name of a pigment, found the end of the line");
    assert_fault("pigment rouge", "2:15: expected a number for the amount of rouge, found the end of the line");
    assert_fault("pigment rouge 11", "2:15: expected an amount from 0 to 10 (grams in 100 grams of base), found `11`");
    assert_fault("pigment rouge -1", "2:15: expected an amount from 0 to 10 (grams in 100 grams of base), found `-1`");
    assert_fault("pigment rogue 1", "2:9: unknown material `rogue`; did you mean `rouge`?");
    assert!(message(format!("{GOOD}pigment rouge 1\npigment white 1\npigment rouge 2\n"))
        .starts_with("4:9: `rouge` is given twice, first in line 2\n"));
    let unknown = message("base concrete\n");
    assert!(unknown.starts_with("1:6: unknown material `concrete`; the known ones are clear-silicone, "), "{unknown}");
    assert!(message("pigment rouge 1\n").starts_with("1:1: `pigment` needs a `base` line as well\n"));
}

#[test]
fn definitions() {
    assert_fault("define mine absorb 1 2", "2:24: expected a number for absorb in blue, found the end of the line");
    assert_fault("define mine scatter 1 2 3", "2:13: expected `absorb`, found `scatter`");
    assert_fault("define mine absorb 1 2 3 scatter 1 x 3", "2:36: expected a number for scatter in green, found `x`");
    assert_fault("define mine absorb 1 -2 3 scatter 1 2 3", "2:22: expected a number that is 0 or more, found `-2`");
    let line = "define mine absorb 1 2 3 scatter 1 2 3";
    assert!(message(format!("{GOOD}{line}\n{line}\n")).starts_with("3:8: `mine` is given twice, first in line 2\n"));
}

#[test]
fn coefficients() {
    assert!(message("absorb 1 2 3\n").starts_with("1:1: `absorb` needs a `scatter` line as well\n"));
    assert!(message("\nscatter 1 2 3\n").starts_with("2:1: `scatter` needs an `absorb` line as well\n"));
    let six = "absorb 1 2 3\nscatter 1 2 3\n";
    assert!(message(format!("{six}base white\n")).starts_with("3:1: `base` cannot stand beside `absorb` and `scatter` (line 1)\n"));
    assert!(message(format!("pigment white 1\n{six}"))
        .starts_with("1:1: `pigment` cannot stand beside `absorb` and `scatter` (line 2)\n"));
    assert!(message("absorb 1 2 3 4\nscatter 1 2 3\n").starts_with("1:14: expected the end of the line, found `4`\n"));
    for nothing in ["", "# only a comment\n", "name x\n"] {
        let expected = " expected a `base` line, or `absorb` and `scatter` lines, found none of them\n";
        assert_eq!(message(nothing), expected);
    }
}

#[test]
fn bytes_that_are_no_ascii() {
    assert!(
        message("name B\u{f6}se\n").starts_with("1:7: expected printable ASCII, found `\u{f6}`\n    name B\u{f6}se\n          ^\n")
    );
    assert!(message(b"# ok\n# \xff\xfe\n").starts_with("2:3: expected printable ASCII, found the byte 0xFF\n"));
    assert!(message(b"# \xe2\x82").starts_with("1:3: expected printable ASCII, found the byte 0xE2\n"));
    assert!(message("\u{feff}base white\n").starts_with("1:1: expected printable ASCII, found `\\u{feff}`\n"));
    let control = message("g \x1b[2J\n");
    assert!(control.starts_with("1:3: expected printable ASCII, found `\\u{1b}`\n    g ?[2J\n"), "{control}");
    assert!(message("g 0\rrows 2\n").starts_with("1:4: expected printable ASCII, found `\\r`\n"));
}

#[test]
fn long_lines_and_files() {
    let found = message(format!("{GOOD}# {}\n", "x".repeat(300)));
    assert!(found.starts_with("2:201: expected a line of at most 200 characters, found 302\n"), "{found}");
    assert!(found.lines().all(|line| line.len() < 210));
    assert_eq!(message(vec![b'\n'; 70_000]), " expected a recipe of at most 65536 bytes, found a larger file\n");
}

/// Numbers out of the library's range are refused by the library, and shown where they stand.
#[test]
fn refusals() {
    let refused = |line, place, meaning| assert_fault(line, &format!("{place}: the library refuses this: {meaning}"));
    let rows = "refusal 1: the number of rows or nodes is outside 2 to 128";
    refused("rows 1", "2:6", rows);
    refused("rows 129", "2:6", rows);
    refused("rows 99999999999999999999999999", "2:6", rows);
    refused("radii 65", "2:7", "refusal 2: the number of radii is outside 2 to 64");
    refused("g 1", "2:3", "refusal 3: g is not between -1 and 1");
    refused("g -1e39", "2:3", "refusal 3: g is not between -1 and 1");
    refused("eta 0.99", "2:5", "refusal 4: the index of refraction is outside 1 to 2");
    refused("eta 2.01", "2:5", "refusal 4: the index of refraction is outside 1 to 2");
}

#[test]
fn refused_coefficients() {
    let refusal = "the library refuses this: refusal 8: a coefficient, or the sum of a channel's two, is negative or not finite";
    let six = |absorb: &str, scatter: &str| message(format!("absorb {absorb}\nscatter {scatter}\n"));
    assert!(six("1 -1 1", "1 1 1").starts_with(&format!("1:10: {refusal}\n    absorb 1 -1 1\n")));
    assert!(six("1 1 1", "1 1 1e39").starts_with(&format!("2:13: {refusal}\n")));
    // No one number is to blame where only the sum of two is infinite.
    assert_eq!(six("3e38 1 1", "3e38 1 1"), format!(" {refusal}\n"));
    let define = message("base b\ndefine b absorb 1e300 0 0 scatter 0 0 0\n");
    assert_eq!(define, format!(" {refusal}\n"));
    let not_a_number = six("1e20 1 1", "1 1 1");
    assert_eq!(not_a_number, " the library refuses this: refusal 12: the radiance is NaN in a channel\n");
}
