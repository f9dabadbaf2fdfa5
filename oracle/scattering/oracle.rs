//! Writes cases for crates/scattering_test and the answers that the Rust gives, those of `sw` under its checks.
//!
//! usage: oracle vectors STDIN_FILE STDOUT_FILE               the stored cases
//!        oracle cases SEED COUNT STDIN_FILE STDOUT_FILE      random ones
//!
//! A case is a line: the name of a function, and words of a space and 8 hexadecimal digits each.
//!   clamp_t val low high
//!   fr_dielectric cos_theta_i eta_i eta_t
//!   phase_hg cos_theta g
//!   fresnel_moment1 eta
//!   fresnel_moment2 eta
//!   beam_diffusion_ss sigma_s sigma_a g eta r
//!   beam_diffusion_ms sigma_s sigma_a g eta r
//!   sw eta cosine
//!   add r g b r g b
//!   mul r g b r g b
//!   clamp r g b low high
//!   has_nans r g b
//!   channel number r g b
//! An answer is `r` and a refusal's number, or `v` and the values: one float, the three of a spectrum, or 1 or 0 of `has_nans`.
//! In answers every NaN is 7fc00000.
mod calls;
mod cases;
#[path = "../shared/numbers.rs"]
mod numbers;
#[path = "../shared/stand_ins.rs"]
mod stand_ins;
#[path = "../shared/table.rs"]
mod table;
#[path = "../shared/writing.rs"]
mod writing;

use calls::{Answer, Case};
use std::fmt::{Display, Formatter};
use writing::{kind, Kind, Line};

/// What a case got, for the summary.
#[derive(Clone, Copy, PartialEq, Eq, PartialOrd, Ord)]
enum Got {
    Value(Kind),
    Yes,
    No,
    Refused(u32),
}

impl Display for Got {
    fn fmt(&self, f: &mut Formatter) -> std::fmt::Result {
        match self {
            Got::Value(kind) => write!(f, "{}", kind),
            Got::Yes => write!(f, "yes"),
            Got::No => write!(f, "no"),
            Got::Refused(k) => write!(f, "r{}", k),
        }
    }
}

fn line(case: &Case) -> Line {
    case.words.iter().fold(Line::of(case.name), |line, word| line.word(*word))
}

fn answer(case: &Case) -> (Line, Got) {
    match calls::answer(case) {
        Answer::Floats(floats) => (Line::of("v").answers(&floats), Got::Value(kind(&floats))),
        Answer::Truth(true) => (Line::of("v").word(1), Got::Yes),
        Answer::Truth(false) => (Line::of("v").word(0), Got::No),
        Answer::Refused(k) => (Line::of("r").word(k), Got::Refused(k)),
    }
}

fn main() {
    writing::run(cases::stored, cases::random, line, answer);
}
