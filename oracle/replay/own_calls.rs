//! The calls on a caller's own lists (specification, section 11): their checks, in order, around the functions of rs_pbrt.
use crate::calls::reference::{catmull_rom_weights, integrate_catmull_rom, sample_catmull_rom_2d};
use crate::calls::{check_radii, check_rows, refuse, rust_runs, Outcome};
use crate::rounds::{self, MOST_ROUNDS};
use crate::table::in_order;

/// What a draw gives.
#[derive(Clone, Copy)]
pub struct Sample {
    pub position: f32,
    pub value: f32,
    pub density: f32,
    pub rounds: u32,
}

/// An offset and four weights.
pub type Weights = (i32, [f32; 4]);

/// `catmull_rom_weights`, with none where it says false.
pub fn offset_and_weights(nodes: &[f32], x: f32) -> Option<Weights> {
    rust_runs();
    let mut offset = 0;
    let mut weights = [0.0; 4];
    catmull_rom_weights(nodes, x, &mut offset, &mut weights).then_some((offset, weights))
}

pub fn check_u(u: f32) -> Outcome {
    refuse(9, !(u >= 0.0 && u <= 1.0))
}

pub fn check_allowance(allowance: u32) -> Outcome {
    refuse(10, !(1..=MOST_ROUNDS).contains(&allowance))
}

/// The weights, none outside, or a refusal's number.
pub fn weights(nodes: &[f32], x: f32) -> Result<Option<Weights>, u32> {
    check_rows(nodes.len())?;
    refuse(6, !in_order(nodes))?;
    Ok(offset_and_weights(nodes, x))
}

/// The sum, or a refusal's number.
pub fn integrate(nodes: &[f32], values: &[f32], cdf: &mut [f32]) -> Result<f32, u32> {
    check_rows(nodes.len())?;
    refuse(5, values.len() != nodes.len() || cdf.len() != nodes.len())?;
    refuse(6, !in_order(nodes))?;
    rust_runs();
    Ok(integrate_catmull_rom(nodes.len() as i32, nodes, 0, values, cdf))
}

/// What is drawn, none outside, or a refusal's number.
pub fn sample_2d(lists: [&[f32]; 3], cdf: &[f32], alpha: f32, u: f32, allowance: u32) -> Result<Option<Sample>, u32> {
    let [nodes1, nodes2, values] = lists;
    let cells = nodes1.len() * nodes2.len();
    check_rows(nodes1.len())?;
    check_radii(nodes2.len())?;
    refuse(5, values.len() != cells || cdf.len() != cells)?;
    refuse(6, !in_order(nodes1) || !in_order(nodes2))?;
    check_u(u)?;
    check_allowance(allowance)?;
    rust_runs();
    let (mut value, mut density) = (0.0, 0.0);
    let draw = || sample_catmull_rom_2d(nodes1, nodes2, values, cdf, alpha, u, Some(&mut value), Some(&mut density));
    let (position, rounds) = rounds::within(allowance, draw).ok_or(13u32)?;
    let inside = offset_and_weights(nodes1, alpha).is_some();
    assert!(inside || position.to_bits() == 0 && rounds == 0, "outside, and something is drawn");
    Ok(inside.then_some(Sample { position, value, density, rounds }))
}
