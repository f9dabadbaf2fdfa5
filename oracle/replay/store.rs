//! The ten lists that a run keeps, each with a capacity, a length and contents.
use crate::calls::Lists;
use crate::protocol::{capacity, LISTS, MARKS, OWN};
use crate::writing::shown;

pub struct Store {
    /// The list of marks has none.
    floats: [Vec<f32>; LISTS],
    marks: Vec<u8>,
    lengths: [usize; LISTS],
}

impl Store {
    pub fn new() -> Store {
        let floats = std::array::from_fn(|list| vec![0.0; if list == MARKS { 0 } else { capacity(list) }]);
        Store { floats, marks: vec![0; capacity(MARKS)], lengths: [0; LISTS] }
    }

    /// The six lent lists.
    pub fn lists(&mut self) -> Lists<'_> {
        let [l0, l1, l2, l3, l4, l5, ..] = self.lengths;
        let [rho_samples, radius_samples, profile, rho_eff, profile_cdf, ..] = &mut self.floats;
        Lists {
            rho_samples: &mut rho_samples[..l0],
            radius_samples: &mut radius_samples[..l1],
            profile: &mut profile[..l2],
            rho_eff: &mut rho_eff[..l3],
            profile_cdf: &mut profile_cdf[..l4],
            marks: &mut self.marks[..l5],
        }
    }

    /// The caller's own lists: two of nodes, values, and the CDF.
    pub fn own(&mut self) -> ([&[f32]; 3], &mut [f32]) {
        let [l6, l7, l8, l9] = self.own_lengths();
        let [.., nodes1, nodes2, values, cdf] = &mut self.floats;
        ([&nodes1[..l6], &nodes2[..l7], &values[..l8]], &mut cdf[..l9])
    }

    pub fn lent_lengths(&self) -> [usize; 6] {
        std::array::from_fn(|list| self.lengths[list])
    }

    pub fn own_lengths(&self) -> [usize; 4] {
        std::array::from_fn(|list| self.lengths[OWN + list])
    }

    /// Sets the lengths of lists from the first one on.
    pub fn set_lengths(&mut self, first: usize, lengths: &[usize]) {
        self.lengths[first..first + lengths.len()].copy_from_slice(lengths);
    }

    /// Stores words from a place on.
    pub fn put(&mut self, list: usize, at: usize, words: &[u32]) {
        for (k, word) in words.iter().enumerate() {
            if list == MARKS {
                self.marks[at + k] = *word as u8;
            } else {
                self.floats[list][at + k] = f32::from_bits(*word);
            }
        }
    }

    pub fn fill(&mut self, list: usize, word: u32) {
        self.marks[..if list == MARKS { capacity(MARKS) } else { 0 }].fill(word as u8);
        self.floats[list].fill(f32::from_bits(word));
    }

    /// One of the caller's own lists as words.
    pub fn own_words(&self, list: usize) -> Vec<u32> {
        words_of(&self.floats[list][..self.lengths[list]])
    }
}

/// Copies of the six lent lists, or lists made to be lent.
pub struct Table {
    pub floats: [Vec<f32>; 5],
    pub marks: Vec<u8>,
}

impl Table {
    pub fn of(lists: &Lists) -> Table {
        Table { floats: floats(lists).map(|list| list.to_vec()), marks: lists.marks.to_vec() }
    }

    pub fn lists(&mut self) -> Lists<'_> {
        let [rho_samples, radius_samples, profile, rho_eff, profile_cdf] = &mut self.floats;
        Lists { rho_samples, radius_samples, profile, rho_eff, profile_cdf, marks: &mut self.marks }
    }
}

/// The lent lists of floats.
fn floats<'a>(lists: &'a Lists) -> [&'a [f32]; 5] {
    [lists.rho_samples, lists.radius_samples, lists.profile, lists.rho_eff, lists.profile_cdf]
}

/// Whether two lists are equal, any NaN to any NaN.
pub fn same_floats(one: &[f32], other: &[f32]) -> bool {
    one.len() == other.len() && one.iter().zip(other).all(|(x, y)| shown(*x) == shown(*y))
}

/// Whether all six lists are equal.
pub fn same(one: &Lists, other: &Lists) -> bool {
    one.marks == other.marks && floats(one).iter().zip(floats(other)).all(|(list, other)| same_floats(list, other))
}

fn words_of(floats: &[f32]) -> Vec<u32> {
    floats.iter().map(|x| shown(*x)).collect()
}

/// A lent list as words.
pub fn words(lists: &Lists, list: usize) -> Vec<u32> {
    if list == MARKS {
        lists.marks.iter().map(|mark| *mark as u32).collect()
    } else {
        words_of(floats(lists)[list])
    }
}

/// FNV-1a of 64 bits over each list's length and entries, as little-endian words.
pub fn hash(lists: impl Iterator<Item = Vec<u32>>) -> u64 {
    let mut hash = 0xcbf29ce484222325u64;
    for words in lists {
        for word in [words.len() as u32].iter().chain(&words) {
            for byte in word.to_le_bytes() {
                hash = (hash ^ byte as u64).wrapping_mul(0x100000001b3);
            }
        }
    }
    hash
}
