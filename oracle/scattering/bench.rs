//! Times the proved sums of beam diffusion beside the functions of rs_pbrt, these with the functions of std and with the stand-ins:
//! ns per sample, the least of many turns, in which the three take turns. The calls are those of a table of 100 albedos by 64 radii,
//! each row with one of a few g and eta: one radius at a time, and a row at a time, where the proved function takes the logarithms
//! once. The proved answers have to be those of the stand-ins, by bits.
#[path = "../shared/references.rs"]
mod references;
#[path = "../shared/stand_ins.rs"]
mod stand_ins;
#[path = "../shared/table.rs"]
mod table;
#[path = "../shared/timing.rs"]
mod timing;

use references::{by_stand_ins, by_std};
use std::hint::black_box;
use table::{albedos, radii};

extern "C" {
    fn scattering_beam_diffusion_ss(sigma_s: f32, sigma_a: f32, g: f32, eta: f32, r: f32) -> f32;
    fn scattering_beam_diffusion_ms(sigma_s: f32, sigma_a: f32, g: f32, eta: f32, r: f32) -> f32;
    fn scattering_row_ss(sigma_s: f32, sigma_a: f32, g: f32, eta: f32, radii: *const f32, m: usize) -> f32;
    fn scattering_row_ms(sigma_s: f32, sigma_a: f32, g: f32, eta: f32, radii: *const f32, m: usize) -> f32;
}

/// sigma_s, sigma_a, g and eta of a row.
type Row = [f32; 4];
type Beam = fn(f32, f32, f32, f32, f32) -> f32;

/// One who computes the sums.
enum Who {
    Rust { ss: Beam, ms: Beam },
    Proved,
}

const BY_STD: Who = Who::Rust { ss: by_std::reference::beam_diffusion_ss, ms: by_std::reference::beam_diffusion_ms };
const BY_STAND_INS: Who =
    Who::Rust { ss: by_stand_ins::reference::beam_diffusion_ss, ms: by_stand_ins::reference::beam_diffusion_ms };

/// The sum of a function over the radii of a row.
fn added(beam: Beam, &[sigma_s, sigma_a, g, eta]: &Row, radii: &[f32]) -> f32 {
    radii.iter().fold(0.0, |sum, r| sum + beam(sigma_s, sigma_a, g, eta, *r))
}

impl Who {
    fn ss(&self, &[sigma_s, sigma_a, g, eta]: &Row, r: f32) -> f32 {
        match self {
            Who::Rust { ss, .. } => ss(sigma_s, sigma_a, g, eta, r),
            Who::Proved => unsafe { scattering_beam_diffusion_ss(sigma_s, sigma_a, g, eta, r) },
        }
    }

    fn ms(&self, &[sigma_s, sigma_a, g, eta]: &Row, r: f32) -> f32 {
        match self {
            Who::Rust { ms, .. } => ms(sigma_s, sigma_a, g, eta, r),
            Who::Proved => unsafe { scattering_beam_diffusion_ms(sigma_s, sigma_a, g, eta, r) },
        }
    }

    fn row_ss(&self, row: &Row, radii: &[f32]) -> f32 {
        let [sigma_s, sigma_a, g, eta] = *row;
        match self {
            Who::Rust { ss, .. } => added(*ss, row, radii),
            Who::Proved => unsafe { scattering_row_ss(sigma_s, sigma_a, g, eta, radii.as_ptr(), radii.len()) },
        }
    }

    fn row_ms(&self, row: &Row, radii: &[f32]) -> f32 {
        let [sigma_s, sigma_a, g, eta] = *row;
        match self {
            Who::Rust { ms, .. } => added(*ms, row, radii),
            Who::Proved => unsafe { scattering_row_ms(sigma_s, sigma_a, g, eta, radii.as_ptr(), radii.len()) },
        }
    }
}

/// What is asked of each for a row, and where the answers go.
type Task = fn(&Who, &Row, &[f32], &mut Vec<f32>);

const TASKS: [(&str, Task); 6] = [
    ("ss, one radius", |who, row, radii, out| out.extend(radii.iter().map(|r| who.ss(row, *r)))),
    ("ms, one radius", |who, row, radii, out| out.extend(radii.iter().map(|r| who.ms(row, *r)))),
    ("ss + ms, one radius", |who, row, radii, out| out.extend(radii.iter().map(|r| who.ss(row, *r) + who.ms(row, *r)))),
    ("ss, a row", |who, row, radii, out| out.push(who.row_ss(row, radii))),
    ("ms, a row", |who, row, radii, out| out.push(who.row_ms(row, radii))),
    ("ss + ms, a row", |who, row, radii, out| out.push(who.row_ss(row, radii) + who.row_ms(row, radii))),
];

const ROWS: usize = 100;
const RADII: usize = 64;
const SAMPLES: usize = 100;
const TURNS: usize = 30;

/// The rows of a table, with one of a few g and eta each.
fn rows() -> Vec<Row> {
    let media = [(0.0, 1.3), (0.5, 1.33), (-0.25, 1.5), (0.9, 1.1), (-0.6, 1.8), (0.25, 1.0)];
    let with = |(i, sigma_s): (usize, &f32)| [*sigma_s, 1.0 - sigma_s, media[i % media.len()].0, media[i % media.len()].1];
    albedos(ROWS).iter().enumerate().map(with).collect()
}

fn answers(who: &Who, task: Task, rows: &[Row], radii: &[f32]) -> Vec<f32> {
    let mut out = Vec::with_capacity(ROWS * RADII);
    rows.iter().for_each(|row| task(who, row, radii, &mut out));
    out
}

fn bits(list: Vec<f32>) -> Vec<u32> {
    list.iter().map(|x| x.to_bits()).collect()
}

fn main() {
    let (rows, radii) = (rows(), radii(RADII));
    println!(
        "{:20} {:>10} {:>10} {:>8} {:>12} {:>18}",
        "ns per sample", "std", "stand-ins", "proved", "std/proved", "stand-ins/proved"
    );
    for (name, task) in TASKS {
        let ask = |who: &Who| answers(who, task, &rows, &radii);
        assert!(bits(ask(&BY_STAND_INS)) == bits(ask(&Who::Proved)), "{}: answers differ", name);
        let mut std = || _ = black_box(ask(&BY_STD));
        let mut stand_ins = || _ = black_box(ask(&BY_STAND_INS));
        let mut proved = || _ = black_box(ask(&Who::Proved));
        let samples = (ROWS * RADII * SAMPLES) as f64;
        let [std, stand_ins, proved] = timing::least(TURNS, [&mut std, &mut stand_ins, &mut proved]).map(|time| time / samples);
        println!("{:20} {:10.2} {:10.2} {:8.2} {:12.2} {:18.2}", name, std, stand_ins, proved, std / proved, stand_ins / proved);
    }
}
