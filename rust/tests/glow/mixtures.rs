//! Bases, pigments and units.

use crate::tool::{coefficients, examples, glow, out, repository, run_on, tool};
use std::collections::HashMap;

type Strength = [f64; 6];

/// The strengths in lines `define NAME absorb R G B scatter R G B`.
fn defined(text: &str) -> HashMap<String, Strength> {
    let mut found = HashMap::new();
    for line in text.lines().filter(|line| line.starts_with("define")) {
        let words: Vec<&str> = line.split('#').next().unwrap().split_whitespace().collect();
        let numbers: Vec<f64> = words.iter().filter_map(|word| word.parse().ok()).collect();
        found.insert(words[1].to_string(), numbers.try_into().unwrap());
    }
    found
}

fn built_in() -> String {
    out(&tool().args(["glow", "--pigments"]).output().unwrap())
}

/// The sum of base and pigments, in the order in which they stand.
fn mixed(recipe: &str, materials: &HashMap<String, Strength>) -> Option<Strength> {
    let mut sum = [0.0; 6];
    let mut any = false;
    for line in recipe.lines() {
        let words: Vec<&str> = line.split('#').next().unwrap().split_whitespace().collect();
        let amount = match words.first() {
            Some(&"base") => 1.0,
            Some(&"pigment") => words[2].parse().unwrap(),
            _ => continue,
        };
        any = true;
        for (total, strength) in sum.iter_mut().zip(materials[words[1]]) {
            *total += strength * amount;
        }
    }
    any.then_some(sum)
}

fn found(recipe: &str) -> [f32; 6] {
    let tint = coefficients(&out(&glow(recipe, &[])));
    [tint.sigma_a, tint.sigma_s].concat().try_into().unwrap()
}

#[test]
fn examples_mix_as_their_lines_say() {
    let mut checked = 0;
    for example in examples() {
        let recipe = std::fs::read_to_string(&example).unwrap();
        let mut materials = defined(&built_in());
        materials.extend(defined(&recipe));
        if let Some(expected) = mixed(&recipe, &materials) {
            assert_eq!(found(&recipe), expected.map(|value| value as f32), "{example:?}");
            checked += 1;
        }
    }
    assert!(checked >= 4);
}

#[test]
fn amounts_add_up() {
    let recipe = "pigment red 0.5\nbase gel\npigment grey 2 # last\n\
                  define grey absorb 1 1 1 scatter 0 0 0\n\
                  define gel absorb 0.25 0.5 0.75 scatter 1 1 1\n\
                  define red absorb 0 4 8 scatter 2 1 0\n";
    assert_eq!(found(recipe), [2.25, 4.5, 6.75, 2.0, 1.5, 1.0]);
}

/// A recipe's own definition stands before a built-in one, and then nothing illustrative is left.
#[test]
fn definitions_replace_built_in_materials() {
    let recipe = "base clear-silicone\npigment rouge 1\n";
    let own = "define rouge absorb 1 2 3 scatter 4 5 6\ndefine clear-silicone absorb 0 0 0 scatter 0 0 0\n";
    assert_eq!(found(&format!("{recipe}{own}")), [1.0, 2.0, 3.0, 4.0, 5.0, 6.0]);
    assert!(out(&glow(recipe, &[])).contains("illustrative"));
    assert!(!out(&glow(format!("{recipe}{own}"), &[])).contains("illustrative"));
}

/// The list of pigments can be pasted into a recipe.
#[test]
fn the_list_is_a_recipe() {
    for example in examples() {
        let recipe = std::fs::read_to_string(&example).unwrap();
        let own: Vec<String> = defined(&recipe).into_keys().collect();
        let is_new = |line: &&str| !own.iter().any(|name| line.split_whitespace().nth(1) == Some(name));
        let list: Vec<String> = built_in().lines().filter(is_new).map(String::from).collect();
        let pasted = glow(format!("{recipe}\n{}\n", list.join("\n")), &["--csv"]);
        assert_eq!(out(&pasted), out(&run_on(&example, &["--csv"])), "{example:?}");
    }
}

/// The table in recipes/README.md has the built-in strengths.
#[test]
fn the_documented_strengths_are_the_built_in_ones() {
    let readme = std::fs::read_to_string(repository().join("recipes/README.md")).unwrap();
    let materials = defined(&built_in());
    for (name, strength) in &materials {
        let row = readme.lines().find(|line| line.starts_with(&format!("| `{name}`"))).unwrap();
        let numbers: Vec<f64> = row.split(['|', ',', ' ']).filter_map(|word| word.parse().ok()).collect();
        assert_eq!(numbers, strength, "{name}");
    }
    assert!(materials.len() > 5);
}

/// The warm pigments take green and blue more than red, and the blue one takes red more than blue.
#[test]
fn flesh_tones_are_warm() {
    let materials = defined(&built_in());
    for name in ["fair-flesh", "tan-flesh", "rouge", "ochre", "brown", "umber"] {
        let [red, green, blue, ..] = materials[name];
        assert!(red < green && red < blue, "{name}");
    }
    let [red, _, blue, ..] = materials["blue"];
    assert!(red > blue);
}

/// The same silicone in another unit: its coefficients are in 1 over that unit.
#[test]
fn units() {
    let recipe = "base clear-silicone\npigment fair-flesh 0.2\n";
    let millimetres = found(recipe);
    for (unit, length) in [("cm", 10.0), ("um", 0.001), ("in", 25.4)] {
        for (other, value) in found(&format!("{recipe}unit {unit}\n")).into_iter().zip(millimetres) {
            assert!((other / value / length - 1.0).abs() < 1e-6, "{unit}");
        }
    }
    // One's own numbers are in the unit of the recipe already.
    let six = "absorb 1 2 3\nscatter 4 5 6\nunit cm\n";
    assert_eq!(found(six), [1.0, 2.0, 3.0, 4.0, 5.0, 6.0]);
    let own = "base b\nunit cm\ndefine b absorb 1 2 3 scatter 4 5 6\n";
    assert_eq!(found(own), [1.0, 2.0, 3.0, 4.0, 5.0, 6.0]);
}
