//! The calls that are timed, on a table of one medium, and what they are given.
use crate::numbers::Rng;
use crate::rust::sigma_t_and_rho;

/// g and eta.
pub const G: f32 = 0.5;
pub const ETA: f32 = 1.33;

/// N, M and the lists, without marks.
#[derive(Clone)]
pub struct Table {
    pub n: usize,
    pub m: usize,
    pub rho_samples: Vec<f32>,
    pub radius_samples: Vec<f32>,
    pub profile: Vec<f32>,
    pub rho_eff: Vec<f32>,
    pub profile_cdf: Vec<f32>,
}

impl Table {
    pub fn zeros(n: usize, m: usize) -> Table {
        Table {
            n,
            m,
            rho_samples: vec![0.0; n],
            radius_samples: vec![0.0; m],
            profile: vec![0.0; n * m],
            rho_eff: vec![0.0; n],
            profile_cdf: vec![0.0; n * m],
        }
    }
}

/// What a query is asked with. The Rust's object holds sigma_t and the albedo, so these are here beside the coefficients.
pub struct Query {
    pub sigma_a: [f32; 3],
    pub sigma_s: [f32; 3],
    pub sigma_t: [f32; 3],
    pub rho: [f32; 3],
    pub channel: usize,
    pub radius: f32,
    pub u: f32,
}

/// Absorption and scattering by channel.
pub type Material = [[f32; 3]; 2];

pub const ONE_MATERIAL: Material = [[0.011, 0.024, 0.14], [2.55, 3.21, 3.77]];

/// Six random coefficients.
pub fn any_material(rng: &mut Rng) -> Material {
    [[(); 3].map(|_| rng.scale(-4, 1)), [(); 3].map(|_| rng.scale(-2, 1))]
}

impl Query {
    /// A random channel and u, and an optical radius between two of the nodes, any two as often as any others.
    pub fn any(rng: &mut Rng, [sigma_a, sigma_s]: Material, radii: &[f32]) -> Query {
        let [sigma_t, rho] = sigma_t_and_rho([sigma_a, sigma_s]);
        let channel = rng.below(3);
        let interval = rng.below(radii.len() - 1);
        let radius = rng.within(radii[interval], radii[interval + 1]) / sigma_t[channel];
        Query { sigma_a, sigma_s, sigma_t, rho, channel, radius, u: rng.unit() }
    }
}

/// Who answers the calls.
pub trait Library {
    /// With a copy of a whole table.
    fn over(table: &Table) -> Self;
    fn table(&self) -> Table;
    fn start(&mut self);
    fn build(&mut self, row: usize);
    /// A start, and every row.
    fn make(&mut self);
    /// Takes over a query's sigma_t and albedo, where an object holds them.
    fn take(&mut self, query: &Query);
    /// The same, but works them out of the coefficients.
    fn work_out(&mut self, query: &Query);
    fn sr(&self, query: &Query) -> [f32; 3];
    fn pdf_sr(&self, query: &Query) -> f32;
    fn sample_sr(&self, query: &Query) -> f32;
    fn sw(&mut self, eta: f32, cosine: f32) -> [f32; 3];
    /// The offset and the weights among the albedo nodes; none outside.
    fn weights(&self, x: f32) -> Option<(i32, [f32; 4])>;
    /// The integral of a row of the profile; its CDF goes to its place.
    fn integrate(&mut self, row: usize) -> f32;
    /// Position, value and density.
    fn sample_2d(&self, alpha: f32, u: f32) -> [f32; 3];
}
