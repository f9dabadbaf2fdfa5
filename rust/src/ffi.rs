//! The functions of the linked library with slices in place of pointers. All return 0, or the number of a refusal.
use crate::lent::{Lists, View};
use crate::{Channel, Coefficients, Record};

mod linked;

pub fn start(record: Record, lists: &mut Lists) -> u32 {
    // SAFETY: each pointer is that of a slice, with its length after it. The slices are exclusive, so that none overlaps another.
    unsafe {
        linked::gauzespar_start(
            record.n,
            record.m,
            record.g,
            record.eta,
            lists.rho_samples.as_mut_ptr(),
            lists.rho_samples.len(),
            lists.radius_samples.as_mut_ptr(),
            lists.radius_samples.len(),
            lists.profile.as_mut_ptr(),
            lists.profile.len(),
            lists.rho_eff.as_mut_ptr(),
            lists.rho_eff.len(),
            lists.profile_cdf.as_mut_ptr(),
            lists.profile_cdf.len(),
            lists.marks.as_mut_ptr(),
            lists.marks.len(),
        )
    }
}

pub fn build(record: Record, row: usize, lists: &mut Lists) -> u32 {
    // SAFETY: each pointer is that of a slice, with its length after it. The slices are exclusive, so that none overlaps another.
    unsafe {
        linked::gauzespar_build(
            record.n,
            record.m,
            record.g,
            record.eta,
            row,
            lists.rho_samples.as_ptr(),
            lists.rho_samples.len(),
            lists.radius_samples.as_ptr(),
            lists.radius_samples.len(),
            lists.profile.as_mut_ptr(),
            lists.profile.len(),
            lists.rho_eff.as_mut_ptr(),
            lists.rho_eff.len(),
            lists.profile_cdf.as_mut_ptr(),
            lists.profile_cdf.len(),
            lists.marks.as_mut_ptr(),
            lists.marks.len(),
        )
    }
}

/// Calls a query: with the record, each list's pointer and length, the channel if it takes one, the coefficients, and the rest.
macro_rules! query {
    ($function:ident, $record:ident, $lists:ident, [$($channel:ident)?], $coefficients:ident, $($rest:expr),+) => {
        linked::$function(
            $record.n,
            $record.m,
            $record.g,
            $record.eta,
            $lists.rho_samples.as_ptr(),
            $lists.rho_samples.len(),
            $lists.radius_samples.as_ptr(),
            $lists.radius_samples.len(),
            $lists.profile.as_ptr(),
            $lists.profile.len(),
            $lists.rho_eff.as_ptr(),
            $lists.rho_eff.len(),
            $lists.profile_cdf.as_ptr(),
            $lists.profile_cdf.len(),
            $lists.marks.as_ptr(),
            $lists.marks.len(),
            $($channel as u32,)?
            $coefficients.sigma_a[0],
            $coefficients.sigma_a[1],
            $coefficients.sigma_a[2],
            $coefficients.sigma_s[0],
            $coefficients.sigma_s[1],
            $coefficients.sigma_s[2],
            $($rest),+
        )
    };
}

pub fn sr(record: Record, lists: &View, coefficients: Coefficients, radius: f32, radiance: &mut [f32; 3]) -> u32 {
    // SAFETY: each pointer is that of a slice, with its length after it. What is written is borrowed exclusively.
    unsafe { query!(gauzespar_sr, record, lists, [], coefficients, radius, radiance.as_mut_ptr(), radiance.len()) }
}

pub fn pdf_sr(record: Record, lists: &View, channel: Channel, coefficients: Coefficients, radius: f32, density: &mut f32) -> u32 {
    // SAFETY: each pointer is that of a slice, with its length after it, or of one value. What is written is borrowed exclusively.
    unsafe { query!(gauzespar_pdf_sr, record, lists, [channel], coefficients, radius, density, 1) }
}

/// The place of a draw, and how many rounds it may take.
#[derive(Clone, Copy)]
pub struct Draw {
    pub u: f32,
    pub allowance: u32,
}

pub fn sample_sr(
    record: Record,
    lists: &View,
    channel: Channel,
    coefficients: Coefficients,
    draw: Draw,
    drawn: &mut f32,
    rounds: &mut u32,
) -> u32 {
    // SAFETY: each pointer is that of a slice, with its length after it, or of one value. What is written is borrowed exclusively.
    unsafe { query!(gauzespar_sample_sr, record, lists, [channel], coefficients, draw.u, draw.allowance, drawn, 1, rounds, 1) }
}

pub fn sw(eta: f32, cosine: f32, spectrum: &mut [f32; 3]) -> u32 {
    // SAFETY: the pointer is that of an array, with its length after it.
    unsafe { linked::gauzespar_sw(eta, cosine, spectrum.as_mut_ptr(), spectrum.len()) }
}

pub fn weights(nodes: &[f32], x: f32, inside: &mut u8, offset: &mut i32, weights: &mut [f32; 4]) -> u32 {
    // SAFETY: each pointer is that of a slice, with its length after it, or of one value. What is written is borrowed exclusively.
    unsafe { linked::gauzespar_weights(nodes.as_ptr(), nodes.len(), x, inside, 1, offset, 1, weights.as_mut_ptr(), weights.len()) }
}

pub fn integrate(nodes: &[f32], values: &[f32], cdf: &mut [f32], sum: &mut f32) -> u32 {
    // SAFETY: each pointer is that of a slice, with its length after it, or of one value. What is written is borrowed exclusively.
    unsafe {
        linked::gauzespar_integrate(nodes.as_ptr(), nodes.len(), values.as_ptr(), values.len(), cdf.as_mut_ptr(), cdf.len(), sum, 1)
    }
}

/// A table of values over two node lists, and the integrals of its rows.
#[derive(Clone, Copy)]
pub struct Surface<'a> {
    pub nodes1: &'a [f32],
    pub nodes2: &'a [f32],
    pub values: &'a [f32],
    pub cdf: &'a [f32],
}

pub fn sample_2d(surface: Surface, alpha: f32, draw: Draw, sample: &mut [f32; 3], rounds: &mut u32) -> u32 {
    // SAFETY: each pointer is that of a slice, with its length after it, or of one value. What is written is borrowed exclusively.
    unsafe {
        linked::gauzespar_sample_2d(
            surface.nodes1.as_ptr(),
            surface.nodes1.len(),
            surface.nodes2.as_ptr(),
            surface.nodes2.len(),
            surface.values.as_ptr(),
            surface.values.len(),
            surface.cdf.as_ptr(),
            surface.cdf.len(),
            alpha,
            draw.u,
            draw.allowance,
            sample.as_mut_ptr(),
            sample.len(),
            rounds,
            1,
        )
    }
}
