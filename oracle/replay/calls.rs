//! The five calls on lent lists, and `sw`: their checks (specification, section 4.3), in order, around the functions of rs_pbrt.
use crate::own_calls::{check_allowance, check_u, offset_and_weights};
use crate::rounds;
use crate::stand_ins::StandIns;
use crate::table::in_order;
use reference::{
    compute_beam_diffusion_bssrdf, compute_nodes, compute_row, medium, BssrdfTable, RGBEnum, RGBSpectrum, TabulatedBssrdf, Vector3f,
};
use std::cell::Cell;

/// What cut.rs wrote.
#[allow(dead_code, clippy::all)]
pub mod reference {
    include!(env!("REFERENCE"));
}

impl StandIns for f32 {
    fn stand_in_abs(self) -> f32 {
        rounds::counted_abs(self)
    }
}

thread_local! {
    static UNCLAMPED: Cell<[f32; 3]> = const { Cell::new([0.0; 3]) };
    static RAN: Cell<bool> = const { Cell::new(false) };
}

/// To be said where a call comes to functions of rs_pbrt.
pub fn rust_runs() {
    RAN.set(true);
}

/// What a call gets, and whether it came to any.
pub fn watched<T>(call: impl FnOnce() -> T) -> (T, bool) {
    RAN.set(false);
    (call(), RAN.get())
}

/// The clamp of a radiance, by the Rust's own where that does not panic. What it is given is kept.
pub trait StandInClamp {
    fn stand_in_clamp(&self, low: f32, high: f32) -> RGBSpectrum;
}

impl StandInClamp for RGBSpectrum {
    fn stand_in_clamp(&self, low: f32, high: f32) -> RGBSpectrum {
        UNCLAMPED.set(self.c);
        if self.c.iter().any(|x| x.is_nan()) {
            *self
        } else {
            self.clamp(low, high)
        }
    }
}

/// The specification gives PI by its bits (section 7.6).
const _: () = assert!(std::f32::consts::PI.to_bits() == 0x40490fdb);

pub const MOST_ROWS: usize = 128;
pub const MOST_RADII: usize = 64;

#[derive(Clone, Copy)]
pub struct Record {
    pub n: u32,
    pub m: u32,
    pub g: f32,
    pub eta: f32,
}

impl Record {
    pub fn same(&self, other: &Record) -> bool {
        let bits = |r: &Record| [r.n, r.m, r.g.to_bits(), r.eta.to_bits()];
        bits(self) == bits(other)
    }
}

/// Absorption and scattering by channel.
#[derive(Clone, Copy)]
pub struct Coefficients {
    pub sigma_a: [f32; 3],
    pub sigma_s: [f32; 3],
}

/// The six lists as they are lent.
pub struct Lists<'a> {
    pub rho_samples: &'a mut [f32],
    pub radius_samples: &'a mut [f32],
    pub profile: &'a mut [f32],
    pub rho_eff: &'a mut [f32],
    pub profile_cdf: &'a mut [f32],
    pub marks: &'a mut [u8],
}

/// Done, or a refusal's number.
pub type Outcome = Result<(), u32>;

pub fn refuse(number: u32, cause: bool) -> Outcome {
    if cause {
        Err(number)
    } else {
        Ok(())
    }
}

/// The lengths that a record asks of its six lists.
pub fn lengths(r: &Record) -> [u64; 6] {
    let (n, m) = (r.n as u64, r.m as u64);
    [n, m, n * m, n, n * m, n]
}

pub fn check_rows(n: usize) -> Outcome {
    refuse(1, !(2..=MOST_ROWS).contains(&n))
}

pub fn check_radii(m: usize) -> Outcome {
    refuse(2, !(2..=MOST_RADII).contains(&m))
}

fn check_eta(eta: f32) -> Outcome {
    refuse(4, !(1.0 <= eta && eta <= 2.0))
}

/// Checks 1 to 5.
fn check_sizes(r: &Record, lists: &Lists) -> Outcome {
    check_rows(r.n as usize)?;
    check_radii(r.m as usize)?;
    refuse(3, !(-1.0 < r.g && r.g < 1.0))?;
    check_eta(r.eta)?;
    let nodes = [lists.rho_samples.len(), lists.radius_samples.len()];
    let rows = [lists.profile.len(), lists.rho_eff.len(), lists.profile_cdf.len(), lists.marks.len()];
    refuse(5, [&nodes[..], &rows[..]].concat() != lengths(r).map(|length| length as usize))
}

fn check_nodes(lists: &Lists) -> Outcome {
    refuse(6, !in_order(lists.rho_samples) || !in_order(lists.radius_samples))
}

/// Checks 1 to 6.
fn check_lists(r: &Record, lists: &Lists) -> Outcome {
    check_sizes(r, lists)?;
    check_nodes(lists)
}

fn check_coefficients(c: &Coefficients) -> Outcome {
    let spoilt = |x: &f32| *x < 0.0 || x.is_nan() || x.is_infinite();
    let sums: Vec<f32> = (0..3).map(|ch| c.sigma_a[ch] + c.sigma_s[ch]).collect();
    refuse(8, c.sigma_a.iter().any(spoilt) || c.sigma_s.iter().any(spoilt) || sums.iter().any(|sum| sum.is_infinite()))
}

fn check_built(rows: &[usize], lists: &Lists) -> Outcome {
    refuse(11, rows.iter().any(|row| lists.marks[*row] != 1))
}

/// The table of the Rust that holds what the lists do.
fn table(r: &Record, lists: &Lists) -> BssrdfTable {
    BssrdfTable {
        n_rho_samples: r.n as i32,
        n_radius_samples: r.m as i32,
        rho_samples: lists.rho_samples.to_vec(),
        radius_samples: lists.radius_samples.to_vec(),
        profile: lists.profile.to_vec(),
        rho_eff: lists.rho_eff.to_vec(),
        profile_cdf: lists.profile_cdf.to_vec(),
    }
}

/// The whole of a table of the Rust, to the lists.
fn give_back(t: &BssrdfTable, lists: &mut Lists) {
    lists.rho_samples.copy_from_slice(&t.rho_samples);
    lists.radius_samples.copy_from_slice(&t.radius_samples);
    lists.profile.copy_from_slice(&t.profile);
    lists.rho_eff.copy_from_slice(&t.rho_eff);
    lists.profile_cdf.copy_from_slice(&t.profile_cdf);
}

pub fn start(r: &Record, mut lists: Lists) -> Outcome {
    check_sizes(r, &lists)?;
    rust_runs();
    let mut t = BssrdfTable::new(r.n as i32, r.m as i32);
    compute_nodes(&mut t);
    give_back(&t, &mut lists);
    lists.marks.fill(0);
    Ok(())
}

pub fn build(r: &Record, row: u32, mut lists: Lists) -> Outcome {
    check_lists(r, &lists)?;
    refuse(7, row >= r.n)?;
    rust_runs();
    let mut t = table(r, &lists);
    compute_row(r.g, r.eta, &mut t, row as usize);
    give_back(&t, &mut lists);
    lists.marks[row as usize] = 1;
    Ok(())
}

/// A row's profile, effective albedo and CDF, built in a table that holds nothing else.
pub fn row(r: &Record, row: u32) -> (Vec<f32>, f32, Vec<f32>) {
    let (row, m) = (row as usize, r.m as usize);
    let mut t = BssrdfTable::new(r.n as i32, r.m as i32);
    compute_nodes(&mut t);
    compute_row(r.g, r.eta, &mut t, row);
    (t.profile[row * m..][..m].to_vec(), t.rho_eff[row], t.profile_cdf[row * m..][..m].to_vec())
}

// ---- the queries

const CHANNELS: [RGBEnum; 3] = [RGBEnum::Red, RGBEnum::Green, RGBEnum::Blue];

/// The BSSRDF of the Rust over what the lists hold.
fn bssrdf(r: &Record, c: &Coefficients, lists: &Lists) -> TabulatedBssrdf {
    rust_runs();
    medium(&RGBSpectrum { c: c.sigma_a }, &RGBSpectrum { c: c.sigma_s }, r.eta, table(r, lists))
}

/// The places of nonzero weight, or none where the value is outside.
fn places(nodes: &[f32], x: f32) -> Option<Vec<usize>> {
    let (offset, weights) = offset_and_weights(nodes, x)?;
    Some((0..4).filter(|k| weights[*k] != 0.0).map(|k| (offset + k as i32) as usize).collect())
}

/// The rows that a channel needs for its profile at a world radius: those of nonzero albedo weight, or none where the albedo or the
/// optical radius is outside.
fn needed(b: &TabulatedBssrdf, ch: usize, x: f32) -> Vec<usize> {
    match (places(&b.table.rho_samples, b.rho.c[ch]), places(&b.table.radius_samples, x * b.sigma_t.c[ch])) {
        (Some(rows), Some(_)) => rows,
        _ => Vec::new(),
    }
}

/// The rows that a channel needs for a draw.
fn needed_to_draw(b: &TabulatedBssrdf, ch: usize) -> Vec<usize> {
    if b.sigma_t.c[ch] == 0.0 {
        return Vec::new();
    }
    places(&b.table.rho_samples, b.rho.c[ch]).unwrap_or_default()
}

/// The radiance, or a refusal's number.
pub fn sr(r: &Record, c: &Coefficients, x: f32, lists: &Lists) -> Result<[f32; 3], u32> {
    check_lists(r, lists)?;
    check_coefficients(c)?;
    let b = bssrdf(r, c, lists);
    (0..3).try_for_each(|ch| check_built(&needed(&b, ch, x), lists))?;
    let radiance = b.sr(x);
    refuse(12, UNCLAMPED.get().iter().any(|x| x.is_nan()))?;
    Ok(radiance.c)
}

/// The density, or a refusal's number.
pub fn pdf_sr(r: &Record, c: &Coefficients, ch: usize, x: f32, lists: &Lists) -> Result<f32, u32> {
    check_lists(r, lists)?;
    check_coefficients(c)?;
    let b = bssrdf(r, c, lists);
    check_built(&needed(&b, ch, x), lists)?;
    Ok(b.pdf_sr(CHANNELS[ch], x))
}

/// The radius drawn and the rounds made, or a refusal's number.
pub fn sample_sr(r: &Record, c: &Coefficients, ch: usize, u: f32, allowance: u32, lists: &Lists) -> Result<(f32, u32), u32> {
    check_lists(r, lists)?;
    check_coefficients(c)?;
    check_u(u)?;
    check_allowance(allowance)?;
    let b = bssrdf(r, c, lists);
    check_built(&needed_to_draw(&b, ch), lists)?;
    rounds::within(allowance, || b.sample_sr(CHANNELS[ch], u)).ok_or(13)
}

/// The Fresnel term, or a refusal's number.
pub fn sw(eta: f32, cosine: f32) -> Result<[f32; 3], u32> {
    check_eta(eta)?;
    refuse(9, cosine.is_nan())?;
    rust_runs();
    let black = RGBSpectrum { c: [0.0; 3] };
    Ok(medium(&black, &black, eta, BssrdfTable::new(0, 0)).sw(&Vector3f { x: 0.0, y: 0.0, z: cosine }).c)
}

// ---- checks of the oracle itself

/// The bits of everything in a table, any NaN as one.
fn bits(t: &BssrdfTable) -> Vec<u32> {
    let all = [&t.rho_samples[..], &t.radius_samples, &t.profile, &t.rho_eff, &t.profile_cdf].concat();
    all.iter().map(|x| if x.is_nan() { f32::NAN.to_bits() } else { x.to_bits() }).collect()
}

/// The nodes and then every row, each by the function that cut.rs made, have to give what the function does of which it made them.
pub fn check_parts() {
    let sizes = [(2, 2), (3, 5), (7, 3), (2, 64), (128, 2), (100, 64)];
    let media = [(0.0, 1.33), (0.9, 1.0), (-0.75, 2.0)];
    for (k, (n, m)) in sizes.into_iter().enumerate() {
        for (g, eta) in if n * m < 1000 { &media[..] } else { &media[k % 3..][..1] } {
            let (mut whole, mut parts) = (BssrdfTable::new(n, m), BssrdfTable::new(n, m));
            compute_beam_diffusion_bssrdf(*g, *eta, &mut whole);
            compute_nodes(&mut parts);
            (0..n as usize).for_each(|i| compute_row(*g, *eta, &mut parts, i));
            assert!(bits(&whole) == bits(&parts), "{} by {} with g {} and eta {}: the parts do not give the whole", n, m, g, eta);
        }
    }
}

/// The Rust's clamp has to panic exactly where a channel is a NaN.
pub fn check_clamp() {
    let values = [0.0, -0.0, 1.0, -1.0, f32::NAN, f32::INFINITY, f32::NEG_INFINITY, 1e-45];
    let hook = std::panic::take_hook();
    std::panic::set_hook(Box::new(|_| {}));
    let mut differences = 0;
    for k in 0..512 {
        let s = RGBSpectrum { c: [values[k % 8], values[k / 8 % 8], values[k / 64]] };
        let panics = std::panic::catch_unwind(|| s.clamp(0.0, f32::INFINITY)).is_err();
        differences += (panics != s.c.iter().any(|x| x.is_nan())) as usize;
    }
    std::panic::set_hook(hook);
    assert!(differences == 0, "the clamp does not panic where a channel is a NaN");
}
