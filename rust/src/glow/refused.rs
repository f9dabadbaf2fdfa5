//! A refusal of the library, with the line of the recipe that is to blame, if it is one.

use super::fault::{Fault, Place};
use super::mixture::Source;
use super::recipe::Recipe;
use gauzespar::{Coefficients, Record, Refusal, Table};

pub fn fault(refusal: Refusal, recipe: &Recipe) -> Fault {
    Fault { place: place(refusal, recipe), message: format!("the library refuses this: {refusal}") }
}

fn place(refusal: Refusal, recipe: &Recipe) -> Option<Place> {
    match refusal {
        Refusal::Rows => recipe.places.rows,
        Refusal::Radii => recipe.places.radii,
        Refusal::PhaseAsymmetry => recipe.places.g,
        Refusal::RefractiveIndex => recipe.places.eta,
        Refusal::Coefficients => coefficient_place(recipe),
        _ => None,
    }
}

/// The place of the first coefficient that the library refuses on its own. There is none where only a sum is refused.
fn coefficient_place(recipe: &Recipe) -> Option<Place> {
    let Source::Given([absorb, scatter]) = recipe.tint.source else {
        return None;
    };
    let Coefficients { sigma_a, sigma_s } = recipe.tint.coefficients;
    let given = sigma_a.into_iter().zip(absorb).chain(sigma_s.into_iter().zip(scatter));
    given.into_iter().find(|(value, _)| is_refused(recipe.record, *value)).map(|(_, place)| place)
}

fn is_refused(record: Record, coefficient: f32) -> bool {
    let alone = Coefficients { sigma_a: [coefficient, 0.0, 0.0], sigma_s: [0.0; 3] };
    Table::start(record).and_then(|table| table.needed_rows(alone)).is_err()
}
