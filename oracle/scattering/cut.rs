//! Cuts the scattering functions out of the sources of rs_pbrt, and writes them to one file. Square roots, exponentials, logarithms
//! and the maxima with 0 go to stand-ins. Of the material only its index of refraction is kept, and of a vector its fields.
//!
//! usage: cut SOURCES OUTPUT
#[path = "../shared/cutting.rs"]
mod cutting;

use cutting::{arguments, float_type, function, line, route, routed, source, spectrum_items, surface_term, write};

const HEAD: &str = "use super::StandIns;
use std::ops::{Add, Index, Mul};
";

fn main() {
    let [sources, output] = arguments();
    let pbrt = source(&sources, "pbrt");
    let spectrum = source(&sources, "spectrum");
    let medium = source(&sources, "medium");
    let reflection = source(&sources, "reflection");
    let bssrdf = source(&sources, "bssrdf");
    let items = [
        line(&bssrdf, "use std::f32::consts::PI;"),
        float_type(&pbrt),
        line(&pbrt, "pub type Spectrum "),
        line(&pbrt, "pub const INV_4_PI:"),
        function(&pbrt, "clamp_t"),
        route(&function(&medium, "phase_hg"), 1, "denom", ".sqrt()", ".stand_in_root()"),
        routed(function(&reflection, "fr_dielectric"), 2, 0, 0, 2),
        function(&bssrdf, "fresnel_moment1"),
        function(&bssrdf, "fresnel_moment2"),
        routed(function(&bssrdf, "beam_diffusion_ms"), 3, 5, 1, 0),
        routed(function(&bssrdf, "beam_diffusion_ss"), 2, 1, 1, 0),
        "pub struct TabulatedBssrdf {\n    pub eta: Float,\n}\n".to_string(),
    ];
    let known = ["stand_in_root", "stand_in_exp", "stand_in_ln", "stand_in_max", "abs", "is_nan", "has_nans"];
    let all = [spectrum_items(&spectrum), items.to_vec(), surface_term(&reflection, &bssrdf)].concat();
    write(&output, HEAD, &all, &known);
}
