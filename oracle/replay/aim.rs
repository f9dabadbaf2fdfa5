//! Coefficients, radii and other arguments of queries, aimed at the nodes of a table.
use crate::calls::{Coefficients, Record};
use crate::numbers::{about, down, nans, up, Rng};
use crate::rounds::MOST_ROUNDS;
use crate::table::{albedos, radii};

/// A record, and the nodes that the lists hold.
#[derive(Clone)]
pub struct Aim {
    pub r: Record,
    pub rho_samples: Vec<f32>,
    pub radius_samples: Vec<f32>,
}

/// Absorption and scattering of one channel.
pub type Channel = (f32, f32);

/// A channel of the albedo and sigma_t given, or of ones as near as can be found.
pub fn channel(albedo: f32, sigma_t: f32) -> Channel {
    let s = albedo * sigma_t;
    let exact = |a: &f32| *a >= 0.0 && s / (*a + s) == albedo;
    let a = (sigma_t - s).max(0.0);
    (about(a, 4).into_iter().find(exact).unwrap_or(a), s)
}

pub fn coefficients(channels: [Channel; 3]) -> Coefficients {
    Coefficients { sigma_a: channels.map(|(a, _)| a), sigma_s: channels.map(|(_, s)| s) }
}

pub fn alike(channel: Channel) -> Coefficients {
    coefficients([channel; 3])
}

pub fn sigma_t(c: &Coefficients, ch: usize) -> f32 {
    c.sigma_a[ch] + c.sigma_s[ch]
}

/// Each node, and between each two.
pub fn points(nodes: &[f32]) -> Vec<f32> {
    let mut list = nodes.to_vec();
    list.extend(nodes.windows(2).map(|pair| pair[0] / 2.0 + pair[1] / 2.0));
    list.sort_by(|a, b| a.total_cmp(b));
    list
}

/// A point of the list's range: on a node, beside one, or anywhere between two.
fn inside(nodes: &[f32], rng: &mut Rng) -> f32 {
    let at = rng.below(nodes.len() - 1);
    match rng.below(10) {
        0..=3 => rng.pick(nodes),
        4 => up(rng.pick(nodes)),
        5 => down(rng.pick(nodes)),
        _ => nodes[at] + (nodes[at + 1] - nodes[at]) * rng.unit(),
    }
}

/// A coefficient that is refused.
pub fn refused_coefficients() -> Vec<f32> {
    let mut list = vec![-1.0, -1e-45, f32::MIN, f32::INFINITY, f32::NEG_INFINITY];
    list.extend(nans());
    list
}

pub const HUGE: [f32; 9] = [1e18, 1.8446742e19, 1.8446743e19, 1.8446744e19, 1.8446746e19, 1e25, 1e37, 1.7e38, 3.4e38];
pub const TINY: [f32; 8] = [1e-45, 3e-45, 1e-40, f32::MIN_POSITIVE, 1e-30, 1e-23, 3e-23, 1e-10];

impl Aim {
    /// At the nodes of starting.
    pub fn started(r: Record) -> Aim {
        Aim { r, rho_samples: albedos(r.n as usize), radius_samples: radii(r.m as usize) }
    }

    fn any_scale(&self, rng: &mut Rng) -> f32 {
        match rng.below(20) {
            0..=7 => 1.0,
            8..=11 => [0.125, 0.25, 0.5, 2.0, 4.0, 64.0][rng.below(6)],
            12..=16 => rng.scale(-3, 3),
            17 => rng.scale(-37, 37),
            18 => rng.pick(&HUGE),
            _ => rng.pick(&TINY),
        }
    }

    fn any_channel(&self, rng: &mut Rng) -> Channel {
        let scale = self.any_scale(rng);
        let zero = if rng.chance(50) { 0.0 } else { -0.0 };
        match rng.below(20) {
            0..=13 => channel(inside(&self.rho_samples, rng).clamp(0.0, 1.0), scale),
            14 => (zero, scale),
            15 => (scale, zero),
            16 => (zero, if rng.chance(50) { 0.0 } else { -0.0 }),
            17 => channel(rng.unit(), scale),
            18 => (scale, rng.pick(&TINY)),
            _ => (rng.scale(-2, 2), rng.scale(-2, 2)),
        }
    }

    pub fn any_coefficients(&self, rng: &mut Rng) -> Coefficients {
        let mut c = if rng.chance(40) {
            alike(self.any_channel(rng))
        } else {
            coefficients([self.any_channel(rng), self.any_channel(rng), self.any_channel(rng)])
        };
        if rng.chance(2) {
            let x = rng.pick(&refused_coefficients());
            let ch = rng.below(3);
            if rng.chance(50) {
                c.sigma_a[ch] = x;
            } else {
                c.sigma_s[ch] = x;
            }
        }
        c
    }

    /// A world radius, mostly one whose optical radius is inside for a channel.
    pub fn any_radius(&self, c: &Coefficients, rng: &mut Rng) -> f32 {
        let sigma_t = sigma_t(c, rng.below(3));
        let nodes = &self.radius_samples;
        match rng.below(20) {
            0 => rng.any(),
            1 => rng.pick(&[0.0, -0.0]),
            2 => up(nodes[nodes.len() - 1]) / sigma_t,
            3 => down(nodes[0]) / sigma_t,
            4 => nodes[nodes.len() - 1] / sigma_t * (0.5 + rng.unit()),
            _ => inside(nodes, rng) / sigma_t,
        }
    }
}

pub fn any_u(rng: &mut Rng) -> f32 {
    match rng.below(30) {
        0 => rng.any(),
        1 => 1.0,
        2 => down(1.0),
        3 => rng.pick(&[0.0, -0.0]),
        4 => rng.scale(-30, -2),
        5 => rng.pick(&[up(1.0), -1e-45, f32::NAN]),
        _ => rng.unit(),
    }
}

pub fn any_allowance(rng: &mut Rng) -> u32 {
    match rng.below(30) {
        0 => [0, MOST_ROUNDS + 1, u32::MAX][rng.below(3)],
        1..=7 => rng.between(1, 6) as u32,
        8 | 9 => rng.between(18, 24) as u32,
        _ => MOST_ROUNDS,
    }
}
