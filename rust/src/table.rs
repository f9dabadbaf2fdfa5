use crate::lent::{Lists, View};
use crate::{Channel, Coefficients, Drawn, Record, Refusal, WorldRadius};
use std::fmt;

/// A table of profiles, one row for each albedo, whose rows are built as they are needed.
///
/// A query needs the rows of nonzero albedo weight. If these are built, its answer does not depend on any other row; if one of
/// them is not, it is refused with [`Refusal::RowMissing`], unless its arguments are refused first. Queries take `&self`, so
/// that threads may share a table.
///
/// ```
/// use gauzespar::{Coefficients, Record, Refusal, Table, WorldRadius};
///
/// let mut table = Table::start(Record::new(3, 2, 0.0, 1.33))?;
/// table.build(2)?;
/// let clear = Coefficients { sigma_a: [0.0; 3], sigma_s: [1.0; 3] };
/// let tinted = Coefficients { sigma_a: [1.0; 3], sigma_s: [1.0; 3] };
/// assert_eq!(table.needed_rows(clear)?, [2]);
/// assert!(table.sr(clear, WorldRadius(0.001)).is_ok());
/// assert_eq!(table.missing_rows(tinted)?, [0, 1]);
/// assert_eq!(table.sr(tinted, WorldRadius(0.001)), Err(Refusal::RowMissing));
/// # Ok::<(), Refusal>(())
/// ```
#[derive(Clone)]
pub struct Table {
    record: Record,
    rho_samples: Vec<f32>,
    radius_samples: Vec<f32>,
    profile: Vec<f32>,
    rho_eff: Vec<f32>,
    profile_cdf: Vec<f32>,
    marks: Vec<u8>,
}

/// How far [`Table::ensure_rows_with`] has come.
#[derive(Clone, Copy, Debug, PartialEq, Eq)]
pub struct Progress {
    /// The row that is about to be built, or has just been.
    pub row: usize,
    /// Whether it has been.
    pub built: bool,
    /// How many rows this call has built so far.
    pub done: usize,
    /// How many it builds in all.
    pub total: usize,
}

impl Table {
    /// Starts a table: its nodes are set, and no row is built. Its own build and queries are never refused with 1 to 6.
    ///
    /// Refusals: 1 to 4.
    pub fn start(record: Record) -> Result<Table, Refusal> {
        check_record(record)?;
        let cells = record.n * record.m;
        let mut table = Table {
            record,
            rho_samples: vec![0.0; record.n],
            radius_samples: vec![0.0; record.m],
            profile: vec![0.0; cells],
            rho_eff: vec![0.0; record.n],
            profile_cdf: vec![0.0; cells],
            marks: vec![0; record.n],
        };
        table.lists().start(record)?;
        Ok(table)
    }

    /// Builds a row. Building it again changes nothing.
    ///
    /// Refusals: 7.
    pub fn build(&mut self, row: usize) -> Result<(), Refusal> {
        let record = self.record;
        self.lists().build(record, row)
    }

    /// The radiance that leaves at a radius from where light entered, in red, green and blue. A channel whose albedo or radius
    /// lies outside the nodes is 0 and needs no row. Where the square of its sigma_t overflows it is a NaN instead, and the call
    /// is refused with 12.
    ///
    /// Refusals: 8, 11, 12.
    pub fn sr(&self, coefficients: Coefficients, radius: WorldRadius) -> Result<[f32; 3], Refusal> {
        self.view().sr(self.record, coefficients, radius)
    }

    /// The density of what [`sample_sr`](Table::sample_sr) draws in one channel, in 1 over area: 2 pi times the radius times it
    /// is the density of the radius itself. It is 0 where the albedo or the radius lies outside the nodes. It needs the rows of
    /// that channel alone.
    ///
    /// Refusals: 8, 11.
    pub fn pdf_sr(&self, channel: Channel, coefficients: Coefficients, radius: WorldRadius) -> Result<f32, Refusal> {
        self.view().pdf_sr(self.record, channel, coefficients, radius)
    }

    /// Draws a radius in one channel, by u from 0 to 1, in at most `allowance` rounds. The radius is -1 where the channel
    /// neither absorbs nor scatters. It needs the rows of that channel alone.
    ///
    /// Refusals: 8 to 11, 13.
    pub fn sample_sr(&self, channel: Channel, coefficients: Coefficients, u: f32, allowance: u32) -> Result<Drawn, Refusal> {
        self.view().sample_sr(self.record, channel, coefficients, u, allowance)
    }

    /// The rows that [`sr`](Table::sr) needs with these coefficients, where no channel's radius lies outside the radius nodes:
    /// in ascending order, each once.
    ///
    /// Refusals: 8.
    pub fn needed_rows(&self, coefficients: Coefficients) -> Result<Vec<usize>, Refusal> {
        self.view().needed_rows(self.record, coefficients)
    }

    /// The needed rows that are not built.
    ///
    /// Refusals: 8.
    pub fn missing_rows(&self, coefficients: Coefficients) -> Result<Vec<usize>, Refusal> {
        self.view().missing_rows(self.record, coefficients)
    }

    /// Builds the missing rows and answers which these were.
    ///
    /// Refusals: 8.
    pub fn ensure_rows_for(&mut self, coefficients: Coefficients) -> Result<Vec<usize>, Refusal> {
        self.ensure_rows_with(coefficients, |_| ())
    }

    /// The same, and tells how far it has come, before and after each row.
    ///
    /// Refusals: 8.
    ///
    /// ```
    /// use gauzespar::{Coefficients, Record, Table};
    ///
    /// let mut table = Table::start(Record::new(8, 16, 0.0, 1.41))?;
    /// let tint = Coefficients { sigma_a: [0.1, 0.2, 0.5], sigma_s: [0.8, 0.9, 1.0] };
    /// table.ensure_rows_with(tint, |progress| {
    ///     if progress.built {
    ///         eprintln!("{} of {} rows", progress.done, progress.total);
    ///     }
    /// })?;
    /// assert!(table.missing_rows(tint)?.is_empty());
    /// # Ok::<(), gauzespar::Refusal>(())
    /// ```
    pub fn ensure_rows_with(&mut self, coefficients: Coefficients, mut tell: impl FnMut(Progress)) -> Result<Vec<usize>, Refusal> {
        let rows = self.missing_rows(coefficients)?;
        let total = rows.len();
        for (done, &row) in rows.iter().enumerate() {
            tell(Progress { row, built: false, done, total });
            self.build(row)?;
            tell(Progress { row, built: true, done: done + 1, total });
        }
        Ok(rows)
    }

    /// Whether a row is built. A row that does not exist is not.
    pub fn is_built(&self, row: usize) -> bool {
        self.view().is_built(row)
    }

    /// The rows that are built, in ascending order.
    pub fn built_rows(&self) -> Vec<usize> {
        (0..self.record.n).filter(|row| self.is_built(*row)).collect()
    }

    /// The record that the table was started with.
    pub fn record(&self) -> Record {
        self.record
    }

    /// The albedo nodes, one for each row.
    pub fn rho_samples(&self) -> &[f32] {
        &self.rho_samples
    }

    /// The radius nodes, in mean free paths.
    pub fn radius_samples(&self) -> &[f32] {
        &self.radius_samples
    }

    /// The profile, row after row.
    pub fn profile(&self) -> &[f32] {
        &self.profile
    }

    /// The effective albedos, one for each row.
    pub fn rho_eff(&self) -> &[f32] {
        &self.rho_eff
    }

    /// The running integrals of the profile's rows, row after row.
    pub fn profile_cdf(&self) -> &[f32] {
        &self.profile_cdf
    }

    /// The marks, one for each row: 1 where it is built.
    pub fn marks(&self) -> &[u8] {
        &self.marks
    }

    /// Whether two tables are the same: their records are, and all six lists, compared by bits, any NaN equal to any NaN.
    /// Tables with the same record and the same rows built are the same, in whatever order these were built.
    pub fn same_as(&self, other: &Table) -> bool {
        let same_record = (self.record.n, self.record.m) == (other.record.n, other.record.m)
            && same_floats(&[self.record.g, self.record.eta], &[other.record.g, other.record.eta]);
        same_record
            && same_floats(&self.rho_samples, &other.rho_samples)
            && same_floats(&self.radius_samples, &other.radius_samples)
            && same_floats(&self.profile, &other.profile)
            && same_floats(&self.rho_eff, &other.rho_eff)
            && same_floats(&self.profile_cdf, &other.profile_cdf)
            && self.marks == other.marks
    }

    /// The six lists, to ask.
    pub fn view(&self) -> View<'_> {
        View {
            rho_samples: &self.rho_samples,
            radius_samples: &self.radius_samples,
            profile: &self.profile,
            rho_eff: &self.rho_eff,
            profile_cdf: &self.profile_cdf,
            marks: &self.marks,
        }
    }

    fn lists(&mut self) -> Lists<'_> {
        Lists {
            rho_samples: &mut self.rho_samples,
            radius_samples: &mut self.radius_samples,
            profile: &mut self.profile,
            rho_eff: &mut self.rho_eff,
            profile_cdf: &mut self.profile_cdf,
            marks: &mut self.marks,
        }
    }
}

fn same_floats(one: &[f32], other: &[f32]) -> bool {
    let same = |(a, b): (&f32, &f32)| a.to_bits() == b.to_bits() || (a.is_nan() && b.is_nan());
    one.len() == other.len() && one.iter().zip(other).all(same)
}

/// Has the library check a record, before lists are made for it: with empty lists it answers 1 to 4, or else 5.
fn check_record(record: Record) -> Result<(), Refusal> {
    match Lists::default().start(record) {
        Ok(()) | Err(Refusal::Length) => Ok(()),
        Err(refusal) => Err(refusal),
    }
}

impl fmt::Debug for Table {
    /// The record and the rows that are built; the lists would fill pages.
    fn fmt(&self, f: &mut fmt::Formatter<'_>) -> fmt::Result {
        f.debug_struct("Table").field("record", &self.record).field("built_rows", &self.built_rows()).finish_non_exhaustive()
    }
}
