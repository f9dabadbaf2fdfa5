//! Answers as bits, every NaN as one, so that they can be compared by `==`.
#![allow(dead_code)]
use gauzespar::spline::{Sample, Weights};
use gauzespar::{Drawn, Refusal};

pub type Answer = Result<Vec<u32>, Refusal>;

pub fn bits(x: f32) -> u32 {
    if x.is_nan() {
        f32::NAN.to_bits()
    } else {
        x.to_bits()
    }
}

pub fn all_bits(list: &[f32]) -> Vec<u32> {
    list.iter().map(|x| bits(*x)).collect()
}

pub fn of_nothing(answer: Result<(), Refusal>) -> Answer {
    answer.map(|()| Vec::new())
}

pub fn of_one(answer: Result<f32, Refusal>) -> Answer {
    answer.map(|x| vec![bits(x)])
}

pub fn of_three(answer: Result<[f32; 3], Refusal>) -> Answer {
    answer.map(|list| all_bits(&list))
}

pub fn of_drawn(answer: Result<Drawn, Refusal>) -> Answer {
    answer.map(|drawn| vec![bits(drawn.radius.0), drawn.rounds])
}

pub fn of_rows(answer: Result<Vec<usize>, Refusal>) -> Answer {
    answer.map(|rows| rows.into_iter().map(|row| row as u32).collect())
}

pub fn of_weights(answer: Result<Option<Weights>, Refusal>) -> Answer {
    let values = |at: Weights| [vec![at.offset as u32], all_bits(&at.weights)].concat();
    answer.map(|at| at.map(values).unwrap_or_default())
}

pub fn of_sample(answer: Result<Option<Sample>, Refusal>) -> Answer {
    let values = |s: Sample| [all_bits(&[s.position, s.value, s.density]), vec![s.rounds]].concat();
    answer.map(|sample| sample.map(values).unwrap_or_default())
}
