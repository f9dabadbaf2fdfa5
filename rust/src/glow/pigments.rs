//! Bases and pigments that a recipe may name, and how they mix.
//!
//! The strengths below are illustrative: they were chosen by eye so that mixtures look like skin, and not measured. A maker
//! replaces them by his own with `define` lines in the recipe.

/// How strongly something absorbs and scatters, in red, green and blue.
///
/// Of a base it is meant in 1 over the unit of length; of a pigment in the same for each gram in 100 grams of base.
#[derive(Clone, Copy, Debug, PartialEq)]
pub struct Strength {
    pub absorb: [f64; 3],
    pub scatter: [f64; 3],
}

pub struct Material {
    pub name: &'static str,
    pub about: &'static str,
    /// In 1/mm.
    pub strength: Strength,
}

const fn material(name: &'static str, about: &'static str, absorb: [f64; 3], scatter: [f64; 3]) -> Material {
    Material { name, about, strength: Strength { absorb, scatter } }
}

pub const BUILT_IN: [Material; 11] = [
    material("clear-silicone", "base: nearly clear", [0.002, 0.003, 0.005], [0.05, 0.055, 0.06]),
    material("milky-silicone", "base: whitish, as many soft silicones are", [0.003, 0.004, 0.006], [0.35, 0.38, 0.41]),
    material("white", "covers, hardly absorbs", [0.002, 0.004, 0.012], [8.0, 8.5, 9.0]),
    material("fair-flesh", "a ready-made light skin tone", [0.06, 0.30, 0.66], [4.2, 4.3, 4.4]),
    material("tan-flesh", "a ready-made medium skin tone", [0.25, 0.85, 1.55], [3.6, 3.6, 3.6]),
    material("rouge", "red: lets red pass", [0.25, 6.0, 5.0], [1.2, 0.9, 0.9]),
    material("ochre", "yellow earth: takes blue", [0.3, 1.1, 5.5], [1.8, 1.6, 1.2]),
    material("brown", "takes all light, blue most", [1.6, 3.6, 6.2], [1.2, 1.2, 1.2]),
    material("umber", "a darker, cooler brown", [4.5, 6.5, 8.5], [1.0, 1.0, 1.0]),
    material("blue", "takes red: for veins and cool shadows", [5.5, 2.6, 0.4], [1.0, 1.1, 1.3]),
    material("black", "takes all light evenly", [15.0, 15.0, 15.0], [0.4, 0.4, 0.4]),
];

impl Strength {
    pub const NONE: Strength = Strength { absorb: [0.0; 3], scatter: [0.0; 3] };

    pub fn times(self, factor: f64) -> Strength {
        Strength { absorb: self.absorb.map(|v| v * factor), scatter: self.scatter.map(|v| v * factor) }
    }

    /// Dilute mixing: what is added absorbs and scatters as if it were alone.
    pub fn plus(self, other: Strength) -> Strength {
        Strength { absorb: sum(self.absorb, other.absorb), scatter: sum(self.scatter, other.scatter) }
    }
}

fn sum(a: [f64; 3], b: [f64; 3]) -> [f64; 3] {
    [a[0] + b[0], a[1] + b[1], a[2] + b[2]]
}

pub fn built_in(name: &str) -> Option<&'static Material> {
    BUILT_IN.iter().find(|material| material.name == name)
}

/// The built-in materials as lines of a recipe.
pub fn as_recipe_lines() -> String {
    BUILT_IN.iter().map(recipe_line).collect()
}

fn recipe_line(material: &Material) -> String {
    let list = |values: [f64; 3]| values.map(|v| format!("{v:<5}")).join(" ");
    let Strength { absorb, scatter } = material.strength;
    let name = material.name;
    format!("define {name:<14}  absorb {}  scatter {}  # {}\n", list(absorb), list(scatter), material.about)
}
