/// What a table is a table of.
///
/// Any numbers may stand in a record. [`Table::start`](crate::Table::start) refuses those out of range.
#[derive(Clone, Copy, Debug, PartialEq)]
pub struct Record {
    /// The number of albedos, each of which has a row.
    pub n: usize,
    /// The number of radii, each of which has a column.
    pub m: usize,
    /// The asymmetry of the phase function, between -1 and 1: 0 scatters evenly, more than 0 forward.
    pub g: f32,
    /// The index of refraction, 1 to 2.
    pub eta: f32,
}

impl Record {
    /// The fewest rows.
    pub const MIN_ROWS: usize = 2;
    /// The most rows.
    pub const MAX_ROWS: usize = 128;
    /// The fewest radii.
    pub const MIN_RADII: usize = 2;
    /// The most radii.
    pub const MAX_RADII: usize = 64;

    /// A record of `n` rows and `m` radii.
    pub fn new(n: usize, m: usize, g: f32, eta: f32) -> Record {
        Record { n, m, g, eta }
    }
}

/// Absorption and scattering in red, green and blue, in 1 over the unit of length.
///
/// ```
/// let tint = gauzespar::Coefficients { sigma_a: [0.25, 0.0, 1.0], sigma_s: [0.75, 0.0, 0.0] };
/// assert_eq!(tint.sigma_t(), [1.0, 0.0, 1.0]);
/// assert_eq!(tint.rho(), [0.75, 0.0, 0.0]);
/// ```
#[derive(Clone, Copy, Debug, PartialEq)]
pub struct Coefficients {
    /// Absorption.
    pub sigma_a: [f32; 3],
    /// Scattering.
    pub sigma_s: [f32; 3],
}

impl Coefficients {
    /// The sum of absorption and scattering in each channel.
    pub fn sigma_t(&self) -> [f32; 3] {
        std::array::from_fn(|k| self.sigma_a[k] + self.sigma_s[k])
    }

    /// The albedo of each channel: scattering over the sum, or 0 where the sum is 0.
    pub fn rho(&self) -> [f32; 3] {
        let sigma_t = self.sigma_t();
        std::array::from_fn(|k| if sigma_t[k] == 0.0 { 0.0 } else { self.sigma_s[k] / sigma_t[k] })
    }
}

/// One of the three channels.
#[derive(Clone, Copy, Debug, PartialEq, Eq, Hash)]
#[repr(u32)]
pub enum Channel {
    /// Red, the first of three values.
    Red = 0,
    /// Green, the second.
    Green = 1,
    /// Blue, the third.
    Blue = 2,
}

impl Channel {
    /// The channels in their order.
    pub const ALL: [Channel; 3] = [Channel::Red, Channel::Green, Channel::Blue];
}

/// A distance along the surface, in the unit whose inverse the coefficients have.
///
/// The library takes it times sigma_t to get a radius in mean free paths, which is what a table's radius nodes are.
/// It may be any float. Where the product is beyond the last node, below the first (0, in a table that was started) or NaN, it
/// lies outside the table.
#[derive(Clone, Copy, Debug, PartialEq, PartialOrd)]
pub struct WorldRadius(pub f32);

/// A radius drawn by `sample_sr`.
#[derive(Clone, Copy, Debug, PartialEq)]
pub struct Drawn {
    /// The radius, or -1 where the channel neither absorbs nor scatters.
    pub radius: WorldRadius,
    /// The rounds made to find it.
    pub rounds: u32,
}
