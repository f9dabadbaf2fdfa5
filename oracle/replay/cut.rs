//! Cuts a beam diffusion table, the splines and the queries of a tabulated BSSRDF out of the sources of rs_pbrt, and writes
//! them to one file. Square roots, exponentials, logarithms, the maxima with 0, the absolute value that a draw takes and the clamp of
//! a radiance go to stand-ins. Of the BSSRDF its eta, table, sigma_t and albedo are kept; the latter two are worked out by the lines
//! of its `new` that do so.
//!
//! usage: cut SOURCES OUTPUT
#[path = "../shared/cutting.rs"]
mod cutting;
#[path = "../table/items.rs"]
mod items;

use cutting::{
    arguments, drawing, fail, function, item, line, method, methods, route, source, spectrum_items, surface_term, write,
};

const HEAD: &str = "use super::{StandIns, StandInClamp};
use std::ops::{Add, Index, IndexMut, Mul, MulAssign};
";

const BSSRDF: &str = "pub struct TabulatedBssrdf {
    pub eta: Float,
    pub table: BssrdfTable,
    pub sigma_t: Spectrum,
    pub rho: Spectrum,
}
";

const MEDIUM: &str = "pub fn medium(sigma_a: &Spectrum, sigma_s: &Spectrum, eta: Float, table: BssrdfTable) -> TabulatedBssrdf {";
/// How the first of its lines begins, and the first after them, which is about the surface.
const FIRST: &str = "        let sigma_t";
const END: &str = "        let ns";

/// The function that works out sigma_t and the albedo.
fn medium(bssrdf: &str) -> String {
    let new = method(bssrdf, "TabulatedBssrdf", "new");
    let lines: Vec<&str> = new.lines().collect();
    let place = |text: &str| {
        let places: Vec<usize> = (0..lines.len()).filter(|at| lines[*at].starts_with(text)).collect();
        if places.len() != 1 {
            fail(format!("a line that begins with `{}` was expected once, and is there {} times", text.trim(), places.len()));
        }
        places[0]
    };
    let (first, end) = (place(FIRST), place(END));
    if lines[first - 1] != "    ) -> Self {" || end < first {
        fail("`new` was expected to begin with sigma_t".to_string());
    }
    format!("{}\n{}\n        TabulatedBssrdf {{ eta, table, sigma_t, rho }}\n}}\n", MEDIUM, lines[first..end].join("\n"))
}

/// The three queries.
fn queries(bssrdf: &str) -> String {
    let text = methods(bssrdf, "TabulatedBssrdf", &["sr", "pdf_sr", "sample_sr"]);
    let text = route(&text, 1, "(0.0 as Float)", ".max(", ".stand_in_max(");
    route(&text, 1, "sr", ".clamp(", ".stand_in_clamp(")
}

fn main() {
    let [sources, output] = arguments();
    let pbrt = source(&sources, "pbrt");
    let spectrum = source(&sources, "spectrum");
    let interpolation = source(&sources, "interpolation");
    let bssrdf = source(&sources, "bssrdf");
    let reflection = source(&sources, "reflection");
    let queries = [
        line(&pbrt, "pub type Spectrum "),
        function(&pbrt, "find_interval"),
        function(&interpolation, "catmull_rom_weights"),
        drawing(&interpolation),
        item(&spectrum, "impl MulAssign for RGBSpectrum"),
        item(&spectrum, "impl IndexMut<RGBEnum> for RGBSpectrum"),
        BSSRDF.to_string(),
        medium(&bssrdf),
        queries(&bssrdf),
    ];
    let known = ["unwrap", "first", "last", "len", "iter", "enumerate", "stand_in_abs", "stand_in_clamp"];
    let more = ["eval_profile", "is_nan", "has_nans"];
    let all = [items::items(&sources), spectrum_items(&spectrum), queries.to_vec(), surface_term(&reflection, &bssrdf)].concat();
    write(&output, HEAD, &all, &[&items::KNOWN[..], &known, &more].concat());
}
