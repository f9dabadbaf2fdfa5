//! What each line of the benchmark calls again and again, each time with other arguments.
use crate::library::{Library, Query};
use std::rc::Rc;

pub trait Task {
    /// The mark of every row after the calls.
    const MARK: u8 = 1;
    type Answer: Answer;
    fn call<L: Library>(&self, library: &mut L, i: usize) -> Self::Answer;
}

/// What a call answers.
pub trait Answer {
    /// Its bits, any NaN as one.
    fn bits(&self) -> Vec<u32>;
}

pub fn bits_of(numbers: &[f32]) -> Vec<u32> {
    numbers.iter().map(|x| if x.is_nan() { f32::NAN.to_bits() } else { x.to_bits() }).collect()
}

impl Answer for () {
    fn bits(&self) -> Vec<u32> {
        Vec::new()
    }
}

impl Answer for f32 {
    fn bits(&self) -> Vec<u32> {
        bits_of(&[*self])
    }
}

impl Answer for [f32; 3] {
    fn bits(&self) -> Vec<u32> {
        bits_of(self)
    }
}

/// An offset and weights, or outside.
impl Answer for Option<(i32, [f32; 4])> {
    fn bits(&self) -> Vec<u32> {
        self.map_or(Vec::new(), |(offset, weights)| [vec![offset as u32], bits_of(&weights)].concat())
    }
}

// ---- tables

pub struct Start;

impl Task for Start {
    const MARK: u8 = 0;
    type Answer = ();

    fn call<L: Library>(&self, library: &mut L, _: usize) {
        library.start();
    }
}

/// Rows that are so far apart.
pub struct Build(pub usize);

impl Task for Build {
    type Answer = ();

    fn call<L: Library>(&self, library: &mut L, i: usize) {
        library.build(i * self.0);
    }
}

pub struct Make;

impl Task for Make {
    type Answer = ();

    fn call<L: Library>(&self, library: &mut L, _: usize) {
        library.make();
    }
}

// ---- queries

/// What an object of the Rust is given before each query.
#[derive(Clone, Copy)]
pub enum Before {
    Taken,
    WorkedOut,
}

impl Before {
    #[inline(always)]
    fn prepare<L: Library>(self, library: &mut L, query: &Query) {
        match self {
            Before::Taken => library.take(query),
            Before::WorkedOut => library.work_out(query),
        }
    }
}

pub struct Sr(pub Rc<[Query]>, pub Before);
pub struct PdfSr(pub Rc<[Query]>, pub Before);
pub struct SampleSr(pub Rc<[Query]>, pub Before);

impl Task for Sr {
    type Answer = [f32; 3];

    fn call<L: Library>(&self, library: &mut L, i: usize) -> [f32; 3] {
        self.1.prepare(library, &self.0[i]);
        library.sr(&self.0[i])
    }
}

impl Task for PdfSr {
    type Answer = f32;

    fn call<L: Library>(&self, library: &mut L, i: usize) -> f32 {
        self.1.prepare(library, &self.0[i]);
        library.pdf_sr(&self.0[i])
    }
}

impl Task for SampleSr {
    type Answer = f32;

    fn call<L: Library>(&self, library: &mut L, i: usize) -> f32 {
        self.1.prepare(library, &self.0[i]);
        library.sample_sr(&self.0[i])
    }
}

// ---- the others, with pairs of random numbers from 0 up to 1

pub struct Sw(pub Rc<[[f32; 2]]>);
pub struct Weights(pub Rc<[[f32; 2]]>);
pub struct Sample2d(pub Rc<[[f32; 2]]>);
/// With the number of rows.
pub struct Integrate(pub usize);

impl Task for Sw {
    type Answer = [f32; 3];

    fn call<L: Library>(&self, library: &mut L, i: usize) -> [f32; 3] {
        let [eta, cosine] = self.0[i];
        library.sw(1.0 + eta, 2.0 * cosine - 1.0)
    }
}

impl Task for Weights {
    type Answer = Option<(i32, [f32; 4])>;

    fn call<L: Library>(&self, library: &mut L, i: usize) -> Option<(i32, [f32; 4])> {
        library.weights(self.0[i][0])
    }
}

impl Task for Sample2d {
    type Answer = [f32; 3];

    fn call<L: Library>(&self, library: &mut L, i: usize) -> [f32; 3] {
        let [alpha, u] = self.0[i];
        library.sample_2d(alpha, u)
    }
}

impl Task for Integrate {
    type Answer = f32;

    fn call<L: Library>(&self, library: &mut L, i: usize) -> f32 {
        library.integrate(i % self.0)
    }
}
