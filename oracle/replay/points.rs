//! `sw` and the stand-ins: the stored calls and the random ones.
use crate::history::{History, Put};
use crate::numbers::{about, down, nans, up, Rng, SPECIAL};
use crate::protocol::Call;
use crate::tables::{inner_eta, outer_eta};

pub fn stored(put: Put) {
    let rng = &mut Rng(20261101);
    surface_terms(put);
    roots(rng, put);
    exponentials(rng, put);
    logarithms(rng, put);
}

/// Cosines at the ends of the range, about them and beyond.
fn end_cosines() -> Vec<f32> {
    let mut list = vec![0.0, -0.0, 1e-45, -1e-45, -1e-20, 1e-20, 2.0, -2.0, f32::MAX, f32::MIN, f32::INFINITY, f32::NEG_INFINITY];
    list.extend([about(1.0, 1), about(-1.0, 1), nans().to_vec()].concat());
    list
}

/// About the cosine beyond which all light is reflected, which is below 0: the light comes from within.
fn critical_cosines(eta: f32) -> Vec<f32> {
    about(-((eta - 1.0) * (eta + 1.0)).max(0.0).sqrt() / eta.max(1.0) - 1e-6, 2)
}

fn surface_terms(put: Put) {
    let history = &mut History { class: "sw", put };
    for eta in inner_eta() {
        for cosine in [end_cosines(), critical_cosines(eta), (-8..=8).map(|k| k as f32 / 8.5).collect()].concat() {
            history.call(Call::Sw(eta, cosine));
        }
    }
    history.class = "sw, refused";
    for eta in outer_eta() {
        for cosine in [0.5, -0.0, f32::NEG_INFINITY, f32::from_bits(0xffffffff)] {
            history.call(Call::Sw(eta, cosine));
        }
    }
}

/// Every exponent, at the ends of its range and at a point within.
fn exponents(rng: &mut Rng) -> Vec<u32> {
    (0..256).map(|field: u32| field << 23 | [0, 0x7fffff, rng.bits() & 0x7fffff][field as usize % 3]).collect()
}

/// The ends of the format, NaNs, and subnormals of every length.
fn edges() -> Vec<f32> {
    let subnormals: Vec<f32> = (0..23).map(|k| f32::from_bits(1 << k)).collect();
    [&SPECIAL[..], &nans(), &subnormals, &about(f32::MIN_POSITIVE, 1)].concat()
}

fn roots(rng: &mut Rng, put: Put) {
    let history = &mut History { class: "q", put };
    let squares = [2.0, 3.0, 4.0, 9.0, 1e4, 16769025.0].into_iter().flat_map(|x| about(x, 1));
    let spread = exponents(rng).into_iter().map(f32::from_bits);
    let negative = (0..16).map(|k: u32| f32::from_bits(1 << 31 | k * 0x08123456));
    edges().into_iter().chain(squares).chain(spread).chain(negative).for_each(|x| history.call(Call::Q(x)));
}

/// Where E's cases begin and end, and where its results become subnormal and vanish.
fn exponential_ends() -> Vec<f32> {
    [-104.0, 89.0, 88.722839, -87.336544, -103.27893, -103.97208].into_iter().flat_map(|x| about(x, 2)).collect()
}

fn exponentials(rng: &mut Rng, put: Put) {
    let history = &mut History { class: "e", put };
    let steps = (0..194).map(|k| k as f32 - 104.5 + rng.unit()).collect();
    [edges(), exponential_ends(), steps].concat().into_iter().for_each(|x| history.call(Call::E(x)));
    for bits in exponents(rng) {
        history.call(Call::E(f32::from_bits(bits | (bits & 1) << 31)));
    }
}

/// The only two arguments at which the last term of L's sum, 1/31, changes the result.
const LAST_TERM: [f32; 2] = [f32::from_bits(0x3f7fffd8), f32::from_bits(0x3f7ffff4)];

fn logarithms(rng: &mut Rng, put: Put) {
    let history = &mut History { class: "l", put };
    let built = (0..100).map(|i| 1.0 - (i as f32 + 0.5) / 100.0);
    let spread = exponents(rng).into_iter().take(130).map(f32::from_bits);
    let ends = [f32::MIN_POSITIVE, 1.0, 0.5, 0.70710678].into_iter().flat_map(|x| about(x, 2));
    edges().into_iter().chain(built).chain(spread).chain(ends).chain(LAST_TERM).for_each(|x| history.call(Call::L(x)));
}

// ---- random ones

fn any_surface_term(rng: &mut Rng) -> Call {
    let eta = match rng.below(20) {
        0..=14 => rng.within(1.0, 2.0),
        15..=17 => rng.pick(&inner_eta()),
        _ => rng.pick(&outer_eta()),
    };
    let cosine = match rng.below(20) {
        0..=11 => rng.within(-1.0, 1.0),
        12..=14 => rng.pick(&critical_cosines(eta)),
        15 => rng.any(),
        _ => rng.pick(&end_cosines()),
    };
    Call::Sw(eta, cosine)
}

fn any_exponential(rng: &mut Rng) -> f32 {
    match rng.below(10) {
        0..=5 => rng.within(-105.0, 90.0),
        6 => rng.pick(&exponential_ends()),
        _ => rng.any(),
    }
}

fn any_logarithm(rng: &mut Rng) -> f32 {
    match rng.below(20) {
        0..=10 => f32::from_bits(rng.between(0x00800000, 0x3f7fffff) as u32),
        11..=15 => rng.unit(),
        16 => rng.pick(&[f32::MIN_POSITIVE, down(f32::MIN_POSITIVE), down(1.0), 0.5, 1.0, up(1.0)]),
        _ => rng.any(),
    }
}

pub fn any(rng: &mut Rng, put: Put) {
    match rng.below(4) {
        0 => History { class: "sw", put }.call(any_surface_term(rng)),
        1 => History { class: "q", put }.call(Call::Q(rng.any())),
        2 => History { class: "e", put }.call(Call::E(any_exponential(rng))),
        _ => History { class: "l", put }.call(Call::L(any_logarithm(rng))),
    }
}

pub fn random(rng: &mut Rng, put: Put) {
    (0..rng.between(5, 25)).for_each(|_| any(rng, put));
}
