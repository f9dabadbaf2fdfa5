//! Cuts items out of the sources of rs_pbrt by their names. They stay as they are but for the calls of methods that are sent to
//! stand-ins. Whatever is not found as expected stops the program.
#![allow(dead_code)]
use std::path::Path;

pub fn fail(message: String) -> ! {
    eprintln!("cut: {}", message);
    std::process::exit(1)
}

/// The arguments SOURCES and OUTPUT. SOURCES is a checkout of rs_pbrt (src/core/x.rs) or a folder of its files under flat names
/// (src--src--core--x.rs.txt).
pub fn arguments() -> [String; 2] {
    let arguments: Vec<String> = std::env::args().skip(1).collect();
    arguments.try_into().unwrap_or_else(|_| fail("usage: cut SOURCES OUTPUT".to_string()))
}

/// The text of src/core/NAME.rs.
pub fn source(folder: &str, name: &str) -> String {
    let checkout = Path::new(folder).join("src/core").join(format!("{}.rs", name));
    let flat = Path::new(folder).join(format!("src--src--core--{}.rs.txt", name));
    for path in [&checkout, &flat] {
        if let Ok(text) = std::fs::read_to_string(path) {
            return text;
        }
    }
    fail(format!("neither {} nor {} can be read", checkout.display(), flat.display()))
}

/// The lines of the one item that begins so, up to the brace that closes it at the same margin.
fn block(text: &str, margin: &str, beginning: &str) -> String {
    let begins = |line: &str| {
        let rest = line.strip_prefix(margin).and_then(|line| line.strip_prefix(beginning)).unwrap_or("");
        rest.starts_with(['(', '<']) || rest == " {"
    };
    let lines: Vec<&str> = text.lines().collect();
    let firsts: Vec<usize> = (0..lines.len()).filter(|at| begins(lines[*at])).collect();
    if firsts.len() != 1 {
        fail(format!("`{}` was expected once, and is there {} times", beginning, firsts.len()));
    }
    let from = &lines[firsts[0]..];
    match from.iter().position(|line| line.strip_prefix(margin) == Some("}")) {
        Some(last) => from[..=last].join("\n") + "\n",
        None => fail(format!("no end of `{}`", beginning)),
    }
}

/// A struct, an enum or an implementation, from the words that it begins with.
#[allow(dead_code)]
pub fn item(text: &str, beginning: &str) -> String {
    block(text, "", beginning)
}

pub fn function(text: &str, name: &str) -> String {
    block(text, "", &format!("pub fn {}", name))
}

/// A method of the implementation that has no trait.
#[allow(dead_code)]
pub fn method(text: &str, of: &str, name: &str) -> String {
    block(&item(text, &format!("impl {}", of)), "    ", &format!("pub fn {}", name))
}

/// Methods, put into an implementation again.
pub fn methods(text: &str, of: &str, names: &[&str]) -> String {
    let all: Vec<String> = names.iter().map(|name| method(text, of, name)).collect();
    format!("impl {} {{\n{}}}\n", of, all.concat())
}

/// A constant or a type that takes one line.
pub fn line(text: &str, beginning: &str) -> String {
    let lines: Vec<&str> = text.lines().filter(|line| line.starts_with(beginning)).collect();
    if lines.len() != 1 || !lines[0].ends_with(';') {
        fail(format!("`{}` was expected as one line: {:?}", beginning, lines));
    }
    format!("{}\n", lines[0])
}

/// The line that says what a float is.
pub fn float_type(text: &str) -> String {
    let line = line(text, "pub type Float ");
    if line.trim_end() != "pub type Float = f32;" {
        fail(format!("the type Float is not f32: {}", line));
    }
    line
}

/// The text with its calls of a method sent to another. There must be as many as said, each after what is given.
pub fn route(text: &str, count: usize, before: &str, method: &str, other: &str) -> String {
    let parts: Vec<&str> = text.split(method).collect();
    let (_, heads) = parts.split_last().unwrap_or((&"", &[]));
    if heads.len() != count || !heads.iter().all(|head| head.trim_end().ends_with(before)) {
        fail(format!("`{}` was expected {} times, always after `{}`, and is there {} times", method, count, before, heads.len()));
    }
    parts.join(other)
}

/// The text with as many calls of each method sent to its stand-in.
pub fn routed(text: String, roots: usize, exps: usize, lns: usize, maxima: usize) -> String {
    let text = route(&text, roots, ")", ".sqrt()", ".stand_in_root()");
    let text = route(&text, exps, ")", ".exp()", ".stand_in_exp()");
    let text = route(&text, lns, ")", ".ln()", ".stand_in_ln()");
    route(&text, maxima, "(0.0 as Float)", ".max(", ".stand_in_max(")
}

/// The drawing function, with three of its calls sent to stand-ins: the square root, the maximum with 0 and the absolute value.
pub fn drawing(interpolation: &str) -> String {
    let text = routed(function(interpolation, "sample_catmull_rom_2d"), 1, 0, 0, 1);
    route(&text, 1, "(f_hat - u)", ".abs()", ".stand_in_abs()")
}

/// A method that is not among the known ones, stand-ins included, would be one that nobody has looked at.
fn check_methods(text: &str, known: &[&str]) {
    for part in text.split('.').skip(1) {
        let name: String = part.chars().take_while(|c| c.is_ascii_alphanumeric() || *c == '_').collect();
        let call = part[name.len()..].starts_with('(') && name.starts_with(|c: char| c.is_ascii_lowercase());
        if call && !known.contains(&name.as_str()) {
            fail(format!("a call of a method that is not known: {}", name));
        }
    }
}

/// Writes the items to one file, after the lines that they need.
pub fn write(path: &str, head: &str, items: &[String], known: &[&str]) {
    let text = format!("{}\n{}", head, items.join("\n"));
    check_methods(&text, known);
    if let Err(error) = std::fs::write(path, text) {
        fail(format!("{}: {}", path, error));
    }
}

/// The channels and the spectrum, with the methods and operators that both its users take.
#[allow(dead_code)]
pub fn spectrum_items(spectrum: &str) -> Vec<String> {
    vec![
        "#[derive(Clone, Copy)]".to_string(),
        item(spectrum, "pub enum RGBEnum"),
        "#[derive(Clone, Copy, Default)]".to_string(),
        item(spectrum, "pub struct RGBSpectrum"),
        methods(spectrum, "RGBSpectrum", &["new", "rgb", "clamp", "has_nans"]),
        item(spectrum, "impl Add for RGBSpectrum"),
        item(spectrum, "impl Mul for RGBSpectrum"),
        item(spectrum, "impl Index<RGBEnum> for RGBSpectrum"),
    ]
}

/// The Fresnel term of a BSSRDF, and of a vector its fields and its cosine.
#[allow(dead_code)]
pub fn surface_term(reflection: &str, bssrdf: &str) -> Vec<String> {
    vec![
        "pub struct Vector3f {\n    pub x: Float,\n    pub y: Float,\n    pub z: Float,\n}\n".to_string(),
        function(reflection, "cos_theta"),
        methods(bssrdf, "TabulatedBssrdf", &["sw"]),
    ]
}
