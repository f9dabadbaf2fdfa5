//! What the library answers for a recipe.

use super::edge::Profile;
use gauzespar::{Coefficients, Progress, Record, Refusal, Table, WorldRadius};
use std::f64::consts::PI;

/// A table with the rows that its coefficients need, and no others.
pub struct Light {
    table: Table,
    coefficients: Coefficients,
    profiles: Vec<Profile>,
}

/// How many samples of the edge glow's integral stand on each interval of the table's radius nodes.
const PIECES: usize = 8;

impl Light {
    pub fn open(record: Record, coefficients: Coefficients, tell: impl FnMut(Progress)) -> Result<Light, Refusal> {
        let mut table = Table::start(record)?;
        table.ensure_rows_with(coefficients, tell)?;
        let mut light = Light { table, coefficients, profiles: Vec::new() };
        for channel in 0..3 {
            light.profiles.push(light.sampled(channel)?);
        }
        Ok(light)
    }

    pub fn record(&self) -> Record {
        self.table.record()
    }

    pub fn coefficients(&self) -> Coefficients {
        self.coefficients
    }

    /// The rows that the answers stand on.
    pub fn rows(&self) -> Vec<usize> {
        self.table.built_rows()
    }

    /// The rows that one channel stands on.
    pub fn rows_of(&self, channel: usize) -> Result<Vec<usize>, Refusal> {
        let Coefficients { sigma_a, sigma_s } = self.coefficients;
        self.table.needed_rows(Coefficients { sigma_a: [sigma_a[channel]; 3], sigma_s: [sigma_s[channel]; 3] })
    }

    pub fn at(&self, radius: f32) -> Result<[f32; 3], Refusal> {
        self.table.sr(self.coefficients, WorldRadius(radius))
    }

    pub fn falloff(&self, radii: &[f32]) -> Result<Vec<[f32; 3]>, Refusal> {
        radii.iter().map(|&radius| self.at(radius)).collect()
    }

    /// The radius up to which the table reaches in one channel. A channel that does nothing has no end.
    pub fn reach(&self, channel: usize) -> f32 {
        self.last_node() / self.coefficients.sigma_t()[channel]
    }

    pub fn is_beyond(&self, channel: usize, radius: f32) -> bool {
        radius * self.coefficients.sigma_t()[channel] > self.last_node()
    }

    /// The profile of each channel out to the table's reach, for the edge glow.
    pub fn profiles(&self) -> &[Profile] {
        &self.profiles
    }

    fn sampled(&self, channel: usize) -> Result<Profile, Refusal> {
        let mut samples = Vec::new();
        for radius in self.sample_radii(channel) {
            let radiance = self.at(radius)?[channel];
            samples.push((f64::from(radius), 2.0 * PI * f64::from(radius) * f64::from(radiance)));
        }
        Ok(Profile::new(samples))
    }

    /// The table's radius nodes in the unit of the recipe, each interval cut into pieces. None where the channel does nothing.
    fn sample_radii(&self, channel: usize) -> Vec<f32> {
        let sigma_t = f64::from(self.coefficients.sigma_t()[channel]);
        if sigma_t == 0.0 {
            return Vec::new();
        }
        let nodes: Vec<f64> = self.table.radius_samples().iter().map(|&node| f64::from(node) / sigma_t).collect();
        let mut radii: Vec<f32> = nodes.windows(2).flat_map(|ends| cut(ends[0], ends[1])).collect();
        radii.push(self.last_radius(channel));
        radii.dedup();
        radii
    }

    /// The last radius that does not round to one beyond the table's reach.
    fn last_radius(&self, channel: usize) -> f32 {
        let mut radius = self.reach(channel).min(f32::MAX);
        while self.is_beyond(channel, radius) {
            radius = radius.next_down();
        }
        radius
    }

    fn last_node(&self) -> f32 {
        *self.table.radius_samples().last().expect("a table has at least two radius nodes")
    }
}

/// The start of an interval and the places that cut it into equal pieces.
fn cut(from: f64, to: f64) -> impl Iterator<Item = f32> {
    (0..PIECES).map(move |i| (from + (to - from) * i as f64 / PIECES as f64) as f32)
}

#[cfg(test)]
mod tests {
    use super::*;

    fn ignore(_: Progress) {}

    /// At an albedo node the profile is that of one row, whose integral the table holds as its effective albedo.
    #[test]
    fn totals_are_the_effective_albedos() {
        let record = Record::new(100, 64, 0.0, 1.33);
        let nodes = Table::start(record).unwrap().rho_samples().to_vec();
        for row in [10, 40, 70, 90] {
            let coefficients = Coefficients { sigma_a: [1.0 - nodes[row]; 3], sigma_s: [nodes[row]; 3] };
            assert_eq!(coefficients.rho(), [nodes[row]; 3]);
            let light = Light::open(record, coefficients, ignore).unwrap();
            assert_eq!(light.rows(), [row]);
            let total = light.profiles()[0].total();
            let expected = f64::from(light.table.rho_eff()[row]);
            assert!((total / expected - 1.0).abs() < 2e-4, "row {row}: {total}, {expected}");
        }
    }

    /// Twice the coefficients is the same picture at half the size.
    #[test]
    fn edge_glow_scales_with_the_mean_free_path() {
        let thin = Coefficients { sigma_a: [0.25; 3], sigma_s: [0.75, 1.0, 2.0] };
        let dense = Coefficients { sigma_a: [0.5; 3], sigma_s: [1.5, 2.0, 4.0] };
        let open = |coefficients| Light::open(Record::new(20, 64, 0.0, 1.41), coefficients, ignore).unwrap();
        let (thin, dense) = (open(thin), open(dense));
        for channel in 0..3 {
            let (wide, narrow) = (&thin.profiles()[channel], &dense.profiles()[channel]);
            for d in [0.1, 1.0, 3.0] {
                let (a, b) = (wide.edge_glow(d), narrow.edge_glow(d / 2.0));
                assert!(a > 0.0 && (a / b - 1.0).abs() < 1e-4, "channel {channel}, {d}: {a}, {b}");
            }
        }
    }

    #[test]
    fn reach() {
        let coefficients = Coefficients { sigma_a: [0.5, 0.0, 1e-38], sigma_s: [0.5, 0.0, 0.0] };
        let light = Light::open(Record::new(4, 3, 0.0, 1.41), coefficients, ignore).unwrap();
        assert_eq!(light.reach(0), light.table.radius_samples()[2]);
        assert!(light.profiles()[1].distance_of(0.1).is_none());
        assert!(light.sample_radii(2).iter().all(|radius| radius.is_finite()));
    }

    /// A quotient that was rounded up may lie beyond the table, where the library answers 0.
    #[test]
    fn the_last_sample_is_inside() {
        let mut rounded_up = 0;
        for k in 1..=40 {
            let coefficients = Coefficients { sigma_a: [k as f32 * 0.37; 3], sigma_s: [1.0; 3] };
            let light = Light::open(Record::new(4, 8, 0.0, 1.41), coefficients, ignore).unwrap();
            rounded_up += usize::from(light.is_beyond(0, light.reach(0)));
            assert!(light.at(light.last_radius(0)).unwrap()[0] > 0.0, "{k}");
            assert!(light.is_beyond(0, light.last_radius(0).next_up().next_up()), "{k}");
        }
        assert!(rounded_up > 0);
    }
}
