//! The calls of a case: the functions of rs_pbrt, and around `sw` its checks (specification, section 4.3).
use crate::stand_ins::StandIns;
use reference::{RGBEnum, RGBSpectrum, TabulatedBssrdf, Vector3f};

/// What cut.rs wrote.
#[allow(dead_code, clippy::all)]
pub mod reference {
    include!(env!("REFERENCE"));
}

impl StandIns for f32 {}

/// The specification gives PI by its bits (section 7.6).
const _: () = assert!(std::f32::consts::PI.to_bits() == 0x40490fdb);

/// A function's name, and its arguments' bits. Before the spectrum of `channel` stands the channel's number.
#[derive(Clone)]
pub struct Case {
    pub name: &'static str,
    pub words: Vec<u32>,
}

impl Case {
    pub fn of(name: &'static str, arguments: &[f32]) -> Case {
        Case { name, words: arguments.iter().map(|x| x.to_bits()).collect() }
    }
}

pub enum Answer {
    Floats(Vec<f32>),
    Truth(bool),
    Refused(u32),
}

fn float(x: f32) -> Answer {
    Answer::Floats(vec![x])
}

fn spectrum(s: RGBSpectrum) -> Answer {
    Answer::Floats(vec![s[RGBEnum::Red], s[RGBEnum::Green], s[RGBEnum::Blue]])
}

fn channel(number: u32, s: RGBSpectrum) -> Answer {
    float(
        s[match number {
            0 => RGBEnum::Red,
            1 => RGBEnum::Green,
            2 => RGBEnum::Blue,
            _ => panic!("no channel {}", number),
        }],
    )
}

/// The Rust panics where a channel is still a NaN, and the port leaves that test to its caller.
fn clamp(s: RGBSpectrum, low: f32, high: f32) -> Answer {
    let channels = s.c.map(|x| reference::clamp_t(x, low, high));
    if channels.iter().any(|x| x.is_nan()) {
        Answer::Floats(channels.to_vec())
    } else {
        spectrum(s.clamp(low, high))
    }
}

fn sw(eta: f32, cosine: f32) -> Answer {
    if !(1.0..=2.0).contains(&eta) {
        return Answer::Refused(4);
    }
    if cosine.is_nan() {
        return Answer::Refused(9);
    }
    spectrum(TabulatedBssrdf { eta }.sw(&Vector3f { x: 0.0, y: 0.0, z: cosine }))
}

pub fn answer(case: &Case) -> Answer {
    let floats: Vec<f32> = case.words.iter().map(|word| f32::from_bits(*word)).collect();
    match (case.name, &floats[..]) {
        ("clamp_t", &[val, low, high]) => float(reference::clamp_t(val, low, high)),
        ("fr_dielectric", &[cos_theta_i, eta_i, eta_t]) => float(reference::fr_dielectric(cos_theta_i, eta_i, eta_t)),
        ("phase_hg", &[cos_theta, g]) => float(reference::phase_hg(cos_theta, g)),
        ("fresnel_moment1", &[eta]) => float(reference::fresnel_moment1(eta)),
        ("fresnel_moment2", &[eta]) => float(reference::fresnel_moment2(eta)),
        ("beam_diffusion_ss", &[sigma_s, sigma_a, g, eta, r]) => float(reference::beam_diffusion_ss(sigma_s, sigma_a, g, eta, r)),
        ("beam_diffusion_ms", &[sigma_s, sigma_a, g, eta, r]) => float(reference::beam_diffusion_ms(sigma_s, sigma_a, g, eta, r)),
        ("sw", &[eta, cosine]) => sw(eta, cosine),
        ("add", &[r, g, b, r2, g2, b2]) => spectrum(RGBSpectrum::rgb(r, g, b) + RGBSpectrum::rgb(r2, g2, b2)),
        ("mul", &[r, g, b, r2, g2, b2]) => spectrum(RGBSpectrum::rgb(r, g, b) * RGBSpectrum::rgb(r2, g2, b2)),
        ("clamp", &[r, g, b, low, high]) => clamp(RGBSpectrum::rgb(r, g, b), low, high),
        ("has_nans", &[r, g, b]) => Answer::Truth(RGBSpectrum::rgb(r, g, b).has_nans()),
        ("channel", &[_, r, g, b]) => channel(case.words[0], RGBSpectrum::rgb(r, g, b)),
        _ => panic!("no case: {} with {} words", case.name, floats.len()),
    }
}
