//! The pictures: well-formed, complete, readable, and true to the numbers.

use crate::tool::{examples, glow, out, repository, svg};
use crate::xml::{read, Element};

const SIX: &str = "name Six\nabsorb 0.032 0.17 0.48\nscatter 0.74 0.88 1.01\neta 1.33\n";
const WIDTH: f64 = 900.0;

fn elements(recipe: &str) -> Vec<Element> {
    read(&svg(recipe)).unwrap()
}

fn named<'a>(elements: &'a [Element], name: &'a str) -> impl Iterator<Item = &'a Element> {
    elements.iter().filter(move |element| element.name == name)
}

fn texts(elements: &[Element]) -> Vec<&str> {
    named(elements, "text").map(|element| element.text.as_str()).collect()
}

fn curves(elements: &[Element]) -> Vec<&Element> {
    named(elements, "path").filter(|path| path.get("stroke").is_some()).collect()
}

/// The red, green and blue of each stop of a strip.
fn stops(elements: &[Element], id: &str) -> Vec<[u8; 3]> {
    let start = elements.iter().position(|element| element.get("id") == Some(id)).unwrap();
    let colours = elements[start + 1..].iter().take_while(|element| element.name == "stop");
    colours.map(|stop| rgb(stop.get("stop-color").unwrap())).collect()
}

fn rgb(colour: &str) -> [u8; 3] {
    [1, 3, 5].map(|at| u8::from_str_radix(&colour[at..at + 2], 16).unwrap())
}

#[test]
fn all_parts_are_there() {
    let picture = elements(SIX);
    let shown = texts(&picture);
    for part in [
        "Six",
        "radiance (1/mm²)",
        "radius (mm)",
        "distance from the edge (mm)",
        "red, albedo 0.959",
        "green, albedo 0.838",
        "blue, albedo 0.678",
        "lit side",
        "100 rows, 64 radii, g 0, eta 1.33; stood on 12 of 100 rows: 13-16 21-24 38-41.",
    ] {
        assert!(shown.contains(&part), "{part} is not in {shown:?}");
    }
    assert_eq!(curves(&picture).len(), 3);
    assert_eq!(named(&picture, "linearGradient").count(), 2);
    let mut dashes: Vec<_> = curves(&picture).iter().map(|path| path.get("stroke-dasharray")).collect();
    dashes.dedup();
    assert_eq!(dashes.len(), 3);
}

/// Scripts, and what would have to be fetched, have no place in a picture. Letters are large enough, and places inside.
#[test]
fn every_example_is_readable() {
    for example in examples() {
        let text = svg(&std::fs::read_to_string(&example).unwrap());
        assert!(text.len() < 50_000 && !text.contains("NaN") && !text.contains("inf,") && !text.contains("href"));
        let picture = read(&text).unwrap();
        assert_eq!(named(&picture, "script").count(), 0);
        for element in named(&picture, "text") {
            assert!(element.number("font-size") >= 12.0);
            assert_inside(element);
        }
    }
}

fn assert_inside(element: &Element) {
    if element.get("transform").is_none() {
        let (left, right) = span(element);
        assert!(left >= 0.0 && right <= WIDTH, "{} from {left} to {right}", element.text);
    }
}

/// Where a text begins and ends, if its letters are on average 0.72 of their size wide, as hardly any text's are.
fn span(element: &Element) -> (f64, f64) {
    let width = element.text.chars().count() as f64 * element.number("font-size") * 0.72;
    let x = element.number("x");
    match element.get("text-anchor") {
        Some("end") => (x - width, x),
        Some("middle") => (x - width / 2.0, x + width / 2.0),
        _ => (x, x + width),
    }
}

#[test]
fn the_longest_name_fits_and_is_escaped() {
    let name = "<Left> ear & \"helix\", second try, cooler and thinner than it";
    assert_eq!(name.len(), 60);
    let picture = elements(&SIX.replace("Six", name));
    assert_eq!(named(&picture, "title").next().unwrap().text, name);
    let heading = named(&picture, "text").find(|element| element.text == name).unwrap();
    let swatch = named(&picture, "text").find(|element| element.text == "in even light,").unwrap();
    assert!(span(heading).1 < span(swatch).0);
}

/// The glow only falls, from the lit side to the dark, and red goes farthest here.
#[test]
fn strips_fall() {
    let picture = elements(SIX);
    let seen = stops(&picture, "seen");
    assert!(seen.len() > 100);
    for pair in seen.windows(2) {
        assert!((0..3).all(|channel| pair[0][channel] >= pair[1][channel]), "{pair:?}");
    }
    assert!(seen[0][0] > 200 && seen[seen.len() - 1][0] < 60);
    for [red, green, blue] in stops(&picture, "tint") {
        assert!(red == 255 && green < red && blue <= green);
    }
}

/// Each bar is as long, on the axis of the radius, as the distance that stands beside it and in the printed text.
#[test]
fn bars_are_as_long_as_told() {
    let picture = elements(SIX);
    let printed = out(&glow(SIX, &[]));
    for (name, colour) in [("red", "#c4161c"), ("green", "#14803c"), ("blue", "#1c4fc4")] {
        let bar = named(&picture, "rect").find(|rect| rect.get("fill") == Some(colour)).unwrap();
        let line = printed.lines().find(|line| line.starts_with(&format!("  {name}"))).unwrap();
        let distance: f64 = line.split_whitespace().nth(1).unwrap().parse().unwrap();
        assert!((bar.number("width") - distance / 8.0 * 700.0).abs() < 1.0, "{name}");
        assert!(texts(&picture).contains(&format!("{name} {} mm", line.split_whitespace().nth(1).unwrap()).as_str()));
    }
}

/// A bar that would go beyond the axis ends in a point.
#[test]
fn long_bars_are_pointed() {
    let points = |range: &str| {
        let picture = elements(&format!("{SIX}{range}\n"));
        let found: Vec<String> = named(&picture, "path").filter_map(|path| path.get("fill")).map(String::from).collect();
        found
    };
    assert_eq!(points(""), [""; 0]);
    assert_eq!(points("radius 0.1 to 1 steps 9"), ["#c4161c", "#14803c"]);
}

/// The strips and the curves have one axis: the tick marks of both stand above each other.
#[test]
fn axes_are_aligned() {
    let picture = elements(SIX);
    let places = |label: &str| -> Vec<f64> {
        let labels = named(&picture, "text").filter(|text| text.text == label && text.get("text-anchor") == Some("middle"));
        labels.map(|text| text.number("x")).collect()
    };
    for label in ["0", "1", "2", "7", "8"] {
        let found = places(label);
        assert!(found.len() == 2 && found[0] == found[1], "{label}: {found:?}");
    }
    assert_eq!(places("-1").len(), 1);
}

/// A curve stands where the library's value belongs.
#[test]
fn curves_show_the_values() {
    let picture = elements(SIX);
    let ends: Vec<f64> = curves(&picture).iter().map(|path| last_height(path.get("d").unwrap())).collect();
    let height = |label: &str| {
        let text = named(&picture, "text").find(|text| text.text == label && text.get("text-anchor") == Some("end")).unwrap();
        text.number("y") - 4.0
    };
    let (high, low) = (height("1"), height("0.001"));
    let values = out(&glow(format!("{SIX}radius 1 to 8 steps 1\n"), &["--csv"]));
    let last: Vec<f64> = values.lines().last().unwrap().split(',').skip(1).map(|field| field.parse().unwrap()).collect();
    for (end, value) in ends.into_iter().zip(last) {
        let expected = high + (low - high) * value.log10() / -3.0;
        assert!((end - expected).abs() < 0.2, "{end}, {expected}");
    }
}

fn last_height(path: &str) -> f64 {
    path.rsplit(' ').next().unwrap().parse().unwrap()
}

/// The picture of the front page is what its recipe gives now.
#[test]
fn the_stored_picture_is_current() {
    let stored = std::fs::read_to_string(repository().join("docs/glow.svg")).unwrap();
    let recipe = std::fs::read_to_string(repository().join("recipes/warm-ear-rim.recipe")).unwrap();
    assert!(svg(&recipe) == stored, "docs/glow.svg has to be drawn again, as recipes/README.md says");
}

/// Tints at the ends of what is possible still make a picture.
#[test]
fn strange_tints() {
    for recipe in [
        "absorb 0 0 0\nscatter 0 0 0\n",
        "absorb 1 1 1\nscatter 0 0 0\n",
        "absorb 0 0 0\nscatter 1 1 1\n",
        "absorb 0 1 0\nscatter 1 0 0\nradii 2\nrows 2\n",
        "absorb 1e-38 1e-38 1e-38\nscatter 1e-38 1e-40 0\n",
        "absorb 1000 1000 1000\nscatter 1000 1000 1e6\n",
        "absorb 0.1 0.1 0.1\nscatter 1 1 1\nradius 0 to 100000 steps 1000\n",
        "absorb 0.1 0.1 0.1\nscatter 1 1 1\nradius 0 to 0.001 steps 1\n",
        "absorb 0.1 0.1 0.1\nscatter 1 1 1\ng -0.99\neta 2\n",
        "absorb 0.1 0.1 0.1\nscatter 1 1 1\ng 0.99\neta 1\n",
    ] {
        let text = svg(recipe);
        assert!(!text.contains("NaN") && !text.contains("\"inf") && !text.contains("-inf"), "{recipe}");
        let picture = read(&text).unwrap();
        named(&picture, "text").for_each(assert_inside);
    }
}
