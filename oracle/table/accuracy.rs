//! How far whole tables, and the answers of queries on them, by the stand-ins are from those by the functions of std: how many
//! numbers differ; how many of these are special: zero, infinite or a NaN in one of the two; and of the others the most units in the
//! last place, the greatest difference relative to std's, and how many are above some limits. Then where the greatest are, and the
//! two numbers there. Each query is asked of both tables, each time by the functions that made it.
#[path = "../shared/numbers.rs"]
mod numbers;
#[path = "../shared/places.rs"]
mod places;
#[path = "../replay/rounds.rs"]
mod rounds;
#[path = "../shared/stand_ins.rs"]
mod stand_ins;
#[path = "../shared/stand_ins.rs"]
mod std_functions;
#[path = "../shared/table.rs"]
mod table;

use numbers::Rng;
use places::place;
use rounds::{counted_abs, MOST_ROUNDS};
use table::radii;

const SIZES: [(usize, usize); 3] = [(100, 64), (128, 64), (20, 20)];
const G: [f32; 11] = [-0.99, -0.9, -0.7, -0.5, -0.3, 0.0, 0.3, 0.5, 0.7, 0.9, 0.99];
const ETA: [f32; 9] = [1.0, 1.1, 1.2, 1.33, 1.4, 1.5, 1.6, 1.8, 2.0];
/// How many are asked of each table.
const QUESTIONS: usize = 50000;
const THREADS: usize = 2;
/// The relative differences above each are counted.
const LIMITS: [f64; 4] = [1e-6, 1e-5, 1e-4, 1e-3];

impl stand_ins::StandIns for f32 {
    fn stand_in_abs(self) -> f32 {
        counted_abs(self)
    }
}

impl std_functions::StandIns for f32 {
    fn stand_in_root(self) -> f32 {
        self.sqrt()
    }

    fn stand_in_exp(self) -> f32 {
        self.exp()
    }

    fn stand_in_ln(self) -> f32 {
        self.ln()
    }

    fn stand_in_max(self, v: f32) -> f32 {
        self.max(v)
    }

    fn stand_in_abs(self) -> f32 {
        counted_abs(self)
    }
}

#[derive(Clone, Copy)]
pub struct Record {
    n: usize,
    m: usize,
    g: f32,
    eta: f32,
}

/// Radiance and density at a radius, and a draw.
pub struct Question {
    sigma_a: [f32; 3],
    sigma_s: [f32; 3],
    channel: usize,
    radius: f32,
    u: f32,
}

pub struct Answer {
    radiance: [f32; 3],
    density: f32,
    /// The radius and the rounds, or none where the draw does not end.
    draw: Option<(f32, u32)>,
}

/// Profile, effective albedos and CDF.
pub type Lists = [Vec<f32>; 3];

/// What the cut wrote, in a module of its own, by the functions of another.
macro_rules! reference {
    ($module:ident, $functions:ident) => {
        mod $module {
            use crate::rounds::{within, MOST_ROUNDS};
            use crate::$functions::StandIns;
            use crate::{Answer, Lists, Question, Record};
            use reference::{compute_beam_diffusion_bssrdf, compute_nodes, medium, BssrdfTable, RGBEnum, RGBSpectrum};

            #[allow(dead_code, clippy::all)]
            mod reference {
                include!(env!("REFERENCE"));
            }

            /// The clamp of a radiance, by the Rust's own where that does not panic.
            pub trait StandInClamp {
                fn stand_in_clamp(&self, low: f32, high: f32) -> RGBSpectrum;
            }

            impl StandInClamp for RGBSpectrum {
                fn stand_in_clamp(&self, low: f32, high: f32) -> RGBSpectrum {
                    if self.c.iter().any(|x| x.is_nan()) {
                        *self
                    } else {
                        self.clamp(low, high)
                    }
                }
            }

            pub fn albedo_nodes(n: usize) -> Vec<f32> {
                let mut t = BssrdfTable::new(n as i32, 2);
                compute_nodes(&mut t);
                t.rho_samples
            }

            /// A whole table, and its answers.
            pub fn make_and_ask(r: &Record, questions: &[Question]) -> (Lists, Vec<Answer>) {
                let mut t = BssrdfTable::new(r.n as i32, r.m as i32);
                compute_beam_diffusion_bssrdf(r.g, r.eta, &mut t);
                let lists = [t.profile.clone(), t.rho_eff.clone(), t.profile_cdf.clone()];
                let mut answers = Vec::new();
                for q in questions {
                    let b = medium(&RGBSpectrum { c: q.sigma_a }, &RGBSpectrum { c: q.sigma_s }, r.eta, t);
                    let channel = [RGBEnum::Red, RGBEnum::Green, RGBEnum::Blue][q.channel];
                    answers.push(Answer {
                        radiance: b.sr(q.radius).c,
                        density: b.pdf_sr(channel, q.radius),
                        draw: within(MOST_ROUNDS, || b.sample_sr(channel, q.u)),
                    });
                    t = b.table;
                }
                (lists, answers)
            }
        }
    };
}

reference!(by_stand_ins, stand_ins);
reference!(by_std, std_functions);

/// The greatest value so far, and where it is.
#[derive(Clone, Default)]
struct Greatest {
    value: f64,
    at: String,
}

impl Greatest {
    fn take(&mut self, value: f64, at: impl FnOnce() -> String) {
        if value > self.value {
            *self = Greatest { value, at: at() };
        }
    }
}

/// What is found of pairs of numbers, one by the stand-ins and one by std.
#[derive(Clone, Default)]
struct Found {
    pairs: u64,
    differ: u64,
    /// Of these, those with a zero, an infinity or a NaN.
    special: u64,
    units: Greatest,
    relative: Greatest,
    above: [u64; LIMITS.len()],
}

impl Found {
    fn pair(&mut self, ours: f32, std: f32, at: impl Fn() -> String) {
        self.pairs += 1;
        if ours.to_bits() == std.to_bits() || ours.is_nan() && std.is_nan() {
            return;
        }
        self.differ += 1;
        if [ours, std].iter().any(|x| *x == 0.0 || !x.is_finite()) {
            self.special += 1;
            return;
        }
        let both = || format!("{:e} and {:e}, {}", ours, std, at());
        self.units.take(place(ours).abs_diff(place(std)) as f64, both);
        let relative = (ours as f64 - std as f64).abs() / (std as f64).abs();
        self.relative.take(relative, both);
        LIMITS.iter().zip(&mut self.above).for_each(|(limit, above)| *above += (relative > *limit) as u64);
    }

    fn list(&mut self, ours: &[f32], std: &[f32], at: impl Fn(usize) -> String) {
        (0..ours.len()).for_each(|k| self.pair(ours[k], std[k], || at(k)));
    }

    fn with(&mut self, other: Found) {
        self.pairs += other.pairs;
        self.differ += other.differ;
        self.special += other.special;
        self.units.take(other.units.value, || other.units.at);
        self.relative.take(other.relative.value, || other.relative.at);
        self.above.iter_mut().zip(other.above).for_each(|(above, other)| *above += other);
    }

    fn print(&self, name: &str) {
        let (units, relative) = (self.units.value, self.relative.value);
        print!("{:28} {:>9} {:>9} {:>9} {:>9} {:>9.1e}", name, self.pairs, self.differ, self.special, units, relative);
        println!("{}", self.above.map(|count| format!(" {:>9}", count)).concat());
    }

    fn print_where(&self, name: &str) {
        if self.differ > self.special {
            println!("{}: {}", name, self.relative.at);
        }
        if self.units.at != self.relative.at {
            println!("{}, in units: {}", name, self.units.at);
        }
    }
}

const NAMES: [&str; 7] = [
    "profile",
    "effective albedos",
    "CDF",
    "radiance of a channel",
    "density",
    "radius drawn, as many rounds",
    "radius drawn, other rounds",
];

/// What is found in tables of some records and in their answers.
#[derive(Default)]
struct Findings {
    found: [Found; 7],
    /// Draws that end within the most rounds in one alone, and in neither.
    one_ends: u64,
    none_ends: u64,
}

impl Findings {
    fn tables(&mut self, r: &Record, ours: &Lists, std: &Lists) {
        for (k, width) in [r.m, 1, r.m].into_iter().enumerate() {
            self.found[k].list(&ours[k], &std[k], |at| format!("row {}, place {} of {}", at / width, at % width, name(r)));
        }
    }

    fn answers(&mut self, r: &Record, q: &Question, ours: &Answer, std: &Answer) {
        let at = |ch: usize| {
            let sigma_t = q.sigma_a[ch] + q.sigma_s[ch];
            format!("sigma_t {}, albedo {}, radius {}, u {} on {}", sigma_t, q.sigma_s[ch] / sigma_t, q.radius, q.u, name(r))
        };
        self.found[3].list(&ours.radiance, &std.radiance, at);
        self.found[4].pair(ours.density, std.density, || at(q.channel));
        match (ours.draw, std.draw) {
            (Some((ours, n)), Some((std, m))) => {
                self.found[if n == m { 5 } else { 6 }].pair(ours, std, || format!("{} and {} rounds, {}", n, m, at(q.channel)));
            }
            (None, None) => self.none_ends += 1,
            _ => self.one_ends += 1,
        }
    }

    fn of(records: &[Record]) -> Findings {
        let mut findings = Findings::default();
        for r in records {
            let questions = questions(r);
            let (ours, our_answers) = by_stand_ins::make_and_ask(r, &questions);
            let (std, std_answers) = by_std::make_and_ask(r, &questions);
            findings.tables(r, &ours, &std);
            (0..QUESTIONS).for_each(|k| findings.answers(r, &questions[k], &our_answers[k], &std_answers[k]));
        }
        findings
    }

    fn with(&mut self, other: Findings) {
        self.found.iter_mut().zip(other.found).for_each(|(found, other)| found.with(other));
        self.one_ends += other.one_ends;
        self.none_ends += other.none_ends;
    }
}

fn name(r: &Record) -> String {
    format!("{} by {}, g {}, eta {}", r.n, r.m, r.g, r.eta)
}

fn records() -> Vec<Record> {
    let media = G.iter().flat_map(|g| ETA.map(|eta| (*g, eta)));
    media.flat_map(|(g, eta)| SIZES.map(|(n, m)| Record { n, m, g, eta })).collect()
}

/// Random ones; the optical radius of the channel is between two radius nodes, any two as often as any others.
fn questions(r: &Record) -> Vec<Question> {
    let mut rng = Rng((r.n as u64) << 32 ^ (r.g.to_bits() as u64) << 16 ^ r.eta.to_bits() as u64);
    let radii = radii(r.m);
    let mut question = || {
        let sigma_a = [(); 3].map(|_| rng.scale(-4, 1));
        let sigma_s = [(); 3].map(|_| rng.scale(-2, 1));
        let channel = rng.below(3);
        let interval = rng.below(r.m - 1);
        let radius = rng.within(radii[interval], radii[interval + 1]) / (sigma_a[channel] + sigma_s[channel]);
        Question { sigma_a, sigma_s, channel, radius, u: rng.unit() }
    };
    (0..QUESTIONS).map(|_| question()).collect()
}

/// The nodes of every N.
fn nodes() -> Found {
    let mut found = Found::default();
    for n in 2..=128 {
        found.list(&by_stand_ins::albedo_nodes(n), &by_std::albedo_nodes(n), |k| format!("node {} of {}", k, n));
    }
    found
}

/// The hundred logarithms that every profile entry takes.
fn logarithms() -> Found {
    let mut found = Found::default();
    for i in 0..100 {
        let x = 1.0 - (i as f32 + 0.5) / 100.0;
        found.pair(stand_ins::ln(x), x.ln(), || format!("at {}", x));
    }
    found
}

fn main() {
    let records = records();
    let findings = std::thread::scope(|scope| {
        let parts: Vec<_> =
            records.chunks(records.len().div_ceil(THREADS)).map(|part| scope.spawn(|| Findings::of(part))).collect();
        parts.into_iter().fold(Findings::default(), |mut all, part| {
            all.with(part.join().unwrap());
            all
        })
    });
    println!("{} tables: N by M {:?}, g {:?}, eta {:?}; {} queries of each kind on each", records.len(), SIZES, G, ETA, QUESTIONS);
    print!("{:28} {:>9} {:>9} {:>9} {:>9} {:>9}", "", "numbers", "differ", "special", "units", "relative");
    println!("{}", LIMITS.map(|limit| format!(" {:>9}", format!("> {:e}", limit))).concat());
    nodes().print("albedo nodes, N 2 to 128");
    logarithms().print("logarithms of building");
    NAMES.iter().zip(&findings.found).for_each(|(name, found)| found.print(name));
    println!(
        "draws that end within {} rounds in one alone: {}, in neither: {}",
        MOST_ROUNDS, findings.one_ends, findings.none_ends
    );
    println!("where they differ most, by the stand-ins and by std:");
    NAMES.iter().zip(&findings.found).for_each(|(name, found)| found.print_where(name));
}
