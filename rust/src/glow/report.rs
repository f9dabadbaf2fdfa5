//! The falloff as text: a table for people, CSV for programs.

use super::light::Light;
use super::recipe::Recipe;
use super::words::{self, CHANNELS, FAINT};
use gauzespar::{Coefficients, Refusal};

/// One line for each radius, with the shortest digits that tell each float from all others.
pub fn csv(recipe: &Recipe, light: &Light) -> Result<String, Refusal> {
    let radii = recipe.range.radii();
    let mut text = String::from("radius,red,green,blue\n");
    for (radius, [red, green, blue]) in radii.iter().zip(light.falloff(&radii)?) {
        text += &format!("{radius:?},{red:?},{green:?},{blue:?}\n");
    }
    Ok(text)
}

pub fn table(recipe: &Recipe, light: &Light) -> Result<String, Refusal> {
    let radii = recipe.range.radii();
    let unit = recipe.unit.name;
    let area = format!("1/{unit}2");
    let step = (recipe.range.to - recipe.range.from) / recipe.range.steps as f64;
    let decimals = (2.0 - step.log10().floor()).clamp(0.0, 9.0) as usize;
    let mut text = format!("{:>12}{:>12}{:>12}{:>12}\n", "radius", CHANNELS[0], CHANNELS[1], CHANNELS[2]);
    text += &format!("{unit:>12}{area:>12}{area:>12}{area:>12}\n");
    for (radius, [red, green, blue]) in radii.iter().zip(light.falloff(&radii)?) {
        text += &format!("{radius:>12.decimals$}{red:>12.3e}{green:>12.3e}{blue:>12.3e}\n");
    }
    Ok(text)
}

/// What the tint is.
pub fn heading(recipe: &Recipe, light: &Light) -> String {
    let Coefficients { sigma_a, sigma_s } = light.coefficients();
    let list = |values: [f32; 3]| values.map(|value| value.to_string()).join(" ");
    let unit = recipe.unit.name;
    format!(
        "{}\n{}\nabsorb {}, scatter {} (1/{unit} in red, green, blue)\n",
        recipe.name,
        words::record(light.record()),
        list(sigma_a),
        list(sigma_s)
    )
}

/// How far the glow goes, what the answers stand on, and what to keep in mind about them.
pub fn remarks(recipe: &Recipe, light: &Light) -> Result<String, Refusal> {
    let mut text = format!("beside a straight lit edge the light falls to {} % of the lit side's at\n", FAINT * 100.0);
    for (name, profile) in CHANNELS.iter().zip(light.profiles()) {
        text += &format!("  {name:<6}{}\n", words::distance(profile.distance_of(FAINT), recipe.unit));
    }
    text += &format!("{}\n", words::stood_on(light));
    for (channel, name) in CHANNELS.iter().enumerate() {
        let albedo = light.coefficients().rho()[channel];
        text += &format!("  {name:<6}albedo {albedo:.4}, rows {}\n", words::ranges(&light.rows_of(channel)?));
    }
    for note in notes(recipe, light) {
        text += &format!("note: {note}\n");
    }
    Ok(text)
}

fn notes(recipe: &Recipe, light: &Light) -> Vec<String> {
    let radii = recipe.range.radii();
    let mut notes = Vec::new();
    if radii.contains(&0.0) {
        notes.push(String::from(
            "At radius 0 itself the library answers 0, whatever the tint; the radii above it show the falloff.",
        ));
    }
    for (channel, name) in CHANNELS.iter().enumerate() {
        let beyond = radii.iter().filter(|&&radius| light.is_beyond(channel, radius)).count();
        if beyond > 0 {
            let reach = words::distance(Some(f64::from(light.reach(channel))), recipe.unit);
            notes.push(format!("In {name} the table reaches to {reach}; radii beyond it ({beyond} of {}) are 0.", radii.len()));
        }
    }
    notes.extend(words::cautions(recipe, light));
    notes
}
