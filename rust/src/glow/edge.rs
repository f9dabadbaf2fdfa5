//! The glow beside a straight lit edge.
//!
//! The plane is lit evenly on one side of a straight edge and dark on the other. What leaves at the distance d from the edge, on
//! the dark side, is Sr integrated over the lit half plane. Of the circle of radius r around the place, the angle 2 acos(d / r)
//! lies on the lit side, hence
//!
//! ```text
//! E(d) = integral over r from d to the reach of 2 r acos(d / r) Sr(r) dr
//! ```
//!
//! Far inside the lit side all circles are lit: E = integral of 2 pi r Sr(r) dr, the `total`. What is lit and what is dark add up
//! to it, so that on the lit side E(-d) = total - E(d), and at the edge itself E(0) is half of it.

use std::f64::consts::PI;

/// 2 pi r Sr(r) in one channel, sampled at ascending radii and straight between them; 0 beyond the last.
pub struct Profile {
    samples: Vec<(f64, f64)>,
    total: f64,
}

impl Profile {
    pub fn new(samples: Vec<(f64, f64)>) -> Profile {
        let total = samples.windows(2).map(|s| (s[1].0 - s[0].0) * (s[0].1 + s[1].1) / 2.0).sum();
        Profile { samples, total }
    }

    /// What leaves far inside the lit side, for 1 that enters.
    pub fn total(&self) -> f64 {
        self.total
    }

    /// Whether there is light left where the samples end, enough to be missed: as much as 1 % of the total if it goes on as far
    /// again without falling.
    pub fn ends_early(&self) -> bool {
        self.samples.last().is_some_and(|(radius, value)| radius * value > 0.01 * self.total)
    }

    /// What leaves at a distance from the edge, negative on the lit side.
    pub fn edge_glow(&self, distance: f64) -> f64 {
        if distance < 0.0 {
            self.total - self.edge_glow(-distance)
        } else if distance == 0.0 {
            self.total / 2.0
        } else {
            self.samples.windows(2).map(|s| piece(distance, s[0], s[1])).sum()
        }
    }

    /// The distance at which the glow has fallen to a share of the total, or None if there is no glow. The share is below a half.
    pub fn distance_of(&self, share: f64) -> Option<f64> {
        let (mut near, mut far) = (0.0, self.samples.last()?.0);
        if self.total == 0.0 {
            return None;
        }
        for _ in 0..50 {
            let middle = (near + far) / 2.0;
            if self.edge_glow(middle) > share * self.total {
                near = middle;
            } else {
                far = middle;
            }
        }
        Some(far)
    }
}

/// The integral of acos(d / r) / pi times the straight line between two samples, from d on. It is exact for the line.
fn piece(d: f64, (r0, p0): (f64, f64), (r1, p1): (f64, f64)) -> f64 {
    if r1 <= d {
        return 0.0;
    }
    let slope = (p1 - p0) / (r1 - r0);
    let (constant_from, linear_from) = integrals(d, r0.max(d));
    let (constant_to, linear_to) = integrals(d, r1);
    ((p0 - slope * r0) * (constant_to - constant_from) + slope * (linear_to - linear_from)) / PI
}

/// Antiderivatives of acos(d / r) and of r acos(d / r), for r at least d and d above 0.
fn integrals(d: f64, r: f64) -> (f64, f64) {
    let angle = (d / r).acos();
    let side = (r * r - d * d).sqrt();
    (r * angle - d * (r + side).ln(), (r * r * angle - d * side) / 2.0)
}

#[cfg(test)]
mod tests {
    use super::*;

    fn sampled(profile: impl Fn(f64) -> f64, reach: f64, count: usize) -> Profile {
        Profile::new((0..=count).map(|i| reach * i as f64 / count as f64).map(|r| (r, profile(r))).collect())
    }

    fn assert_near(found: f64, expected: f64, tolerance: f64) {
        assert!((found - expected).abs() <= tolerance, "found {found}, expected {expected}");
    }

    /// Even over a disc of radius 1, the glow is the share of the disc beyond the edge, a segment of a circle. The profile
    /// 2 r is straight, so that even three samples are exact.
    #[test]
    fn disc() {
        for count in [1, 2, 100] {
            let disc = sampled(|r| 2.0 * r, 1.0, count);
            for d in [0.0f64, 1e-9, 0.01, 0.3, 0.5, 0.99, 1.0] {
                assert_near(disc.edge_glow(d), (d.acos() - d * (1.0 - d * d).sqrt()) / PI, 1e-12);
            }
            assert_eq!(disc.edge_glow(1.5), 0.0);
        }
    }

    /// Under a Gaussian of width 1 it is the upper tail of the normal distribution, whose values are in every table.
    #[test]
    fn gaussian() {
        let gaussian = sampled(|r| r * (-r * r / 2.0).exp(), 12.0, 6000);
        assert_near(gaussian.total(), 1.0, 1e-6);
        for (d, tail) in
            [(0.0, 0.5), (0.5, 0.308_537_538_7), (1.0, 0.158_655_253_9), (2.0, 0.022_750_131_9), (3.0, 0.001_349_898_0)]
        {
            assert_near(gaussian.edge_glow(d), tail, 1e-6);
            assert_near(gaussian.edge_glow(-d), 1.0 - tail, 1e-6);
        }
    }

    /// Sr(r) = (1 + r^2)^(-3/2) / (2 pi) gives 1/2 - atan(d) / pi. The samples lie as those of a table do, ever farther apart,
    /// and end where 1e-6 of the light is left.
    #[test]
    fn long_tail() {
        let radii = std::iter::successors(Some(1e-4_f64), |r| Some(r * 1.01)).take_while(|r| *r < 1e6);
        let samples = std::iter::once((0.0, 0.0)).chain(radii.map(|r| (r, r / (1.0 + r * r).powf(1.5)))).collect();
        let profile = Profile::new(samples);
        for d in [0.01f64, 0.1, 1.0, 10.0, 100.0] {
            assert_near(profile.edge_glow(d), 0.5 - d.atan() / PI, 2e-5);
        }
    }

    #[test]
    fn light_beyond_the_end() {
        let gaussian = |reach| sampled(|r| r * (-r * r / 2.0).exp(), reach, 100);
        assert!(gaussian(3.0).ends_early());
        assert!(!gaussian(5.0).ends_early());
        assert!(!Profile::new(Vec::new()).ends_early());
    }

    #[test]
    fn distance_of_a_share() {
        let gaussian = sampled(|r| r * (-r * r / 2.0).exp(), 12.0, 6000);
        assert_near(gaussian.distance_of(0.1).unwrap(), 1.281_551_6, 1e-4);
        assert_eq!(sampled(|_| 0.0, 1.0, 4).distance_of(0.1), None);
        assert_eq!(Profile::new(Vec::new()).distance_of(0.1), None);
    }
}
