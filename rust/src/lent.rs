//! The calls on lists that a program keeps itself.
//!
//! The lists may have any contents and any lengths: each call checks them, and refuses what does not fit its record.
//! [`Table`](crate::Table) owns lists that fit, and is shorter to use.
//!
//! ```
//! use gauzespar::{lent::Lists, Channel, Coefficients, Record, Refusal, WorldRadius};
//!
//! let record = Record::new(3, 2, 0.0, 1.33);
//! let mut marks = [0; 3];
//! let mut lists = Lists {
//!     rho_samples: &mut [0.0; 3],
//!     radius_samples: &mut [0.0; 2],
//!     profile: &mut [0.0; 6],
//!     rho_eff: &mut [0.0; 3],
//!     profile_cdf: &mut [0.0; 6],
//!     marks: &mut marks,
//! };
//! lists.start(record)?;
//! lists.build(record, 2)?;
//!
//! let clear = Coefficients { sigma_a: [0.0; 3], sigma_s: [1.0; 3] };
//! assert!(lists.view().pdf_sr(record, Channel::Red, clear, WorldRadius(0.001))? > 0.0);
//! let tinted = Coefficients { sigma_a: [1.0; 3], sigma_s: [1.0; 3] };
//! let refused = lists.view().pdf_sr(record, Channel::Red, tinted, WorldRadius(0.001));
//! assert_eq!(refused, Err(Refusal::RowMissing));
//! assert_eq!(marks, [0, 0, 1]);
//! # Ok::<(), Refusal>(())
//! ```
use crate::ffi::{self, Draw};
use crate::{spline, Channel, Coefficients, Drawn, Record, Refusal, WorldRadius};

/// The mark of a row that is built. Any other byte says that it is not.
pub const BUILT: u8 = 1;

/// The six lists of a table, to start it and to build rows.
///
/// For a record of n rows and m radii:
#[derive(Debug, Default)]
pub struct Lists<'a> {
    /// n albedo nodes.
    pub rho_samples: &'a mut [f32],
    /// m radius nodes.
    pub radius_samples: &'a mut [f32],
    /// n rows of m.
    pub profile: &'a mut [f32],
    /// n effective albedos.
    pub rho_eff: &'a mut [f32],
    /// n rows of m: the running integrals of the profile's rows.
    pub profile_cdf: &'a mut [f32],
    /// n marks: [`BUILT`], or any other byte.
    pub marks: &'a mut [u8],
}

/// The six lists of a table, to ask: see [`Lists`].
#[derive(Clone, Copy, Debug, Default)]
pub struct View<'a> {
    /// n albedo nodes.
    pub rho_samples: &'a [f32],
    /// m radius nodes.
    pub radius_samples: &'a [f32],
    /// n rows of m.
    pub profile: &'a [f32],
    /// n effective albedos.
    pub rho_eff: &'a [f32],
    /// n rows of m: the running integrals of the profile's rows.
    pub profile_cdf: &'a [f32],
    /// n marks: [`BUILT`], or any other byte.
    pub marks: &'a [u8],
}

impl Lists<'_> {
    /// Starts a table, whatever the lists hold: sets the nodes and zeroes the rest, so that no row is built.
    ///
    /// Refusals: 1 to 5.
    pub fn start(&mut self, record: Record) -> Result<(), Refusal> {
        Refusal::check(ffi::start(record, self))
    }

    /// Builds a row: its places of the profile and of the CDF, its effective albedo and its mark. No other place changes.
    ///
    /// Refusals: 1 to 7.
    pub fn build(&mut self, record: Record, row: usize) -> Result<(), Refusal> {
        Refusal::check(ffi::build(record, row, self))
    }

    /// The same lists, to ask.
    pub fn view(&self) -> View<'_> {
        View {
            rho_samples: self.rho_samples,
            radius_samples: self.radius_samples,
            profile: self.profile,
            rho_eff: self.rho_eff,
            profile_cdf: self.profile_cdf,
            marks: self.marks,
        }
    }
}

impl View<'_> {
    /// The radiance that leaves at a radius from where light entered: see [`Table::sr`](crate::Table::sr).
    ///
    /// Refusals: 1 to 6, 8, 11, 12.
    pub fn sr(&self, record: Record, coefficients: Coefficients, radius: WorldRadius) -> Result<[f32; 3], Refusal> {
        let mut radiance = [0.0; 3];
        Refusal::check(ffi::sr(record, self, coefficients, radius.0, &mut radiance))?;
        Ok(radiance)
    }

    /// The density of what is drawn, in 1 over area: see [`Table::pdf_sr`](crate::Table::pdf_sr).
    ///
    /// Refusals: 1 to 6, 8, 11.
    pub fn pdf_sr(
        &self,
        record: Record,
        channel: Channel,
        coefficients: Coefficients,
        radius: WorldRadius,
    ) -> Result<f32, Refusal> {
        let mut density = 0.0;
        Refusal::check(ffi::pdf_sr(record, self, channel, coefficients, radius.0, &mut density))?;
        Ok(density)
    }

    /// Draws a radius: see [`Table::sample_sr`](crate::Table::sample_sr).
    ///
    /// Refusals: 1 to 6, 8 to 11, 13.
    pub fn sample_sr(
        &self,
        record: Record,
        channel: Channel,
        coefficients: Coefficients,
        u: f32,
        allowance: u32,
    ) -> Result<Drawn, Refusal> {
        let (mut radius, mut rounds) = (0.0, 0);
        let draw = Draw { u, allowance };
        Refusal::check(ffi::sample_sr(record, self, channel, coefficients, draw, &mut radius, &mut rounds))?;
        Ok(Drawn { radius: WorldRadius(radius), rounds })
    }

    /// The rows that `sr` needs: see [`Table::needed_rows`](crate::Table::needed_rows).
    ///
    /// Refusals: 1 to 6, 8.
    pub fn needed_rows(&self, record: Record, coefficients: Coefficients) -> Result<Vec<usize>, Refusal> {
        self.check_query(record, coefficients)?;
        let mut rows = Vec::new();
        for rho in coefficients.rho() {
            if let Some(at) = spline::weights(self.rho_samples, rho)? {
                rows.extend(at.nodes());
            }
        }
        rows.sort_unstable();
        rows.dedup();
        Ok(rows)
    }

    /// The needed rows that are not built.
    ///
    /// Refusals: 1 to 6, 8.
    pub fn missing_rows(&self, record: Record, coefficients: Coefficients) -> Result<Vec<usize>, Refusal> {
        let mut rows = self.needed_rows(record, coefficients)?;
        rows.retain(|row| !self.is_built(*row));
        Ok(rows)
    }

    /// Whether a row is marked as built. A row that does not exist is not.
    pub fn is_built(&self, row: usize) -> bool {
        self.marks.get(row) == Some(&BUILT)
    }

    /// Makes the checks that come before needed rows. No row is needed at a radius of NaN, which is outside.
    fn check_query(&self, record: Record, coefficients: Coefficients) -> Result<(), Refusal> {
        self.pdf_sr(record, Channel::Red, coefficients, WorldRadius(f32::NAN)).map(|_| ())
    }
}
