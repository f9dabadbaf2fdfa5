//! The plain tally (specification, section 12.2): fed an accepted start's record and the arguments of later calls, it keeps that
//! record and a set of row numbers, and answers by the set's table. It never sees an answer, a lent list or a mark.
use crate::calls::{self, Lists, Outcome, Record};
use crate::store::Table;
use crate::table::{albedos, radii};
use std::collections::{BTreeMap, BTreeSet};

/// A row's profile, effective albedo and CDF.
type Row = (Vec<f32>, f32, Vec<f32>);

pub struct Tally {
    record: Record,
    rows: BTreeSet<u32>,
    /// Each row that has been in the set, as the Rust makes it by itself.
    made: BTreeMap<u32, Row>,
    /// The set's table.
    table: Table,
}

/// The nodes of starting; the rows of the set; zeros.
fn set_table(r: &Record, rows: &BTreeSet<u32>, made: &BTreeMap<u32, Row>) -> Table {
    let (n, m) = (r.n as usize, r.m as usize);
    let (mut profile, mut rho_eff, mut profile_cdf, mut marks) = (vec![0.0; n * m], vec![0.0; n], vec![0.0; n * m], vec![0; n]);
    for row in rows {
        let (entries, sum, cdf) = &made[row];
        let row = *row as usize;
        profile[row * m..][..m].copy_from_slice(entries);
        profile_cdf[row * m..][..m].copy_from_slice(cdf);
        rho_eff[row] = *sum;
        marks[row] = 1;
    }
    Table { floats: [albedos(n), radii(m), profile, rho_eff, profile_cdf], marks }
}

impl Tally {
    /// After an accepted start.
    pub fn new(record: Record) -> Tally {
        let (rows, made) = (BTreeSet::new(), BTreeMap::new());
        let table = set_table(&record, &rows, &made);
        Tally { record, rows, made, table }
    }

    /// Whether a call is given the start's record. Others are not the tally's.
    pub fn has(&self, r: &Record) -> bool {
        self.record.same(r)
    }

    /// The start's record passes checks 1 to 4, lists as starting leaves them 5 and 6.
    pub fn build(&mut self, row: u32) -> Outcome {
        if row >= self.record.n {
            return Err(7);
        }
        let record = self.record;
        self.made.entry(row).or_insert_with(|| calls::row(&record, row));
        self.rows.insert(row);
        self.table = set_table(&self.record, &self.rows, &self.made);
        Ok(())
    }

    /// The set's table, on which queries are answered.
    pub fn lists(&mut self) -> Lists<'_> {
        self.table.lists()
    }
}
