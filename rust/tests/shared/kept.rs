//! Six lists that a program keeps itself.
#![allow(dead_code)]
use gauzespar::lent::{Lists, View};
use gauzespar::Record;

#[derive(Clone)]
pub struct Kept {
    /// The five lists of floats, in the order of the calls.
    pub floats: [Vec<f32>; 5],
    pub marks: Vec<u8>,
}

/// The lengths that a record asks for: of the five lists of floats, and of the marks.
pub fn lengths(record: Record) -> ([usize; 5], usize) {
    let Record { n, m, .. } = record;
    ([n, m, n * m, n, n * m], n)
}

impl Kept {
    /// Lists of the lengths that a record asks for, filled by two functions.
    pub fn filled(record: Record, mut float: impl FnMut() -> f32, mut mark: impl FnMut() -> u8) -> Kept {
        let (floats, marks) = lengths(record);
        let floats = floats.map(|length| (0..length).map(|_| float()).collect());
        Kept { floats, marks: (0..marks).map(|_| mark()).collect() }
    }

    pub fn lists(&mut self) -> Lists<'_> {
        let [rho_samples, radius_samples, profile, rho_eff, profile_cdf] = &mut self.floats;
        Lists { rho_samples, radius_samples, profile, rho_eff, profile_cdf, marks: &mut self.marks }
    }

    pub fn view(&self) -> View<'_> {
        let [rho_samples, radius_samples, profile, rho_eff, profile_cdf] = &self.floats;
        View { rho_samples, radius_samples, profile, rho_eff, profile_cdf, marks: &self.marks }
    }

    /// Every byte of the lists, list by list.
    pub fn bytes(&self) -> [Vec<u8>; 6] {
        let [a, b, c, d, e] = self.floats.each_ref().map(|list| list.iter().flat_map(|x| x.to_ne_bytes()).collect());
        [a, b, c, d, e, self.marks.clone()]
    }
}
