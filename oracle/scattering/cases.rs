//! The stored cases and the random ones.
use crate::calls::Case;
use crate::numbers::{about, down, nans, up, Rng, SPECIAL};
use crate::stand_ins::root;
use crate::table::{albedos, radii};
use crate::writing;

type Put<'a> = writing::Put<'a, Case>;

pub fn stored(put: Put) {
    let rng = &mut Rng(20240601);
    clamped_numbers(rng, put);
    fresnel_terms(put);
    fresnel_terms_at_the_critical_angle(put);
    fresnel_terms_at_the_ends(rng, put);
    phases(rng, put);
    moments(rng, put);
    surface_terms(put);
    surface_terms_refused(put);
    spectra(rng, put);
    beams_of_tables(rng, put);
    beams_of_rows_and_columns(put);
    beams_at_the_ends(rng, put);
    beams_of_kinds(rng, put);
}

/// A range in even steps, its ends included.
fn steps(low: f32, high: f32, count: usize) -> Vec<f32> {
    (0..=count).map(|i| low + (high - low) * (i as f32 / count as f32)).collect()
}

/// The ends of the format, where squares and fifth powers leave it, and where a case of some function begins.
fn edges() -> Vec<f32> {
    let mut list = SPECIAL.to_vec();
    list.extend(about(1.0, 2));
    list.extend(about(-1.0, 2));
    list.extend([down(2.0), 2.0, up(2.0), -2.0, 0.5, 3.0, 1e-10, 1e-20, 1e-30, -1e-20, 5e7, 2e19, 1e30, -1e20]);
    list.extend([down(f32::MIN_POSITIVE), down(f32::MAX)]);
    list.extend(&nans()[1..]);
    list
}

/// Cosines where a case of the Fresnel term begins, and beyond.
fn cosine_ends() -> Vec<f32> {
    let mut list = vec![0.0, -0.0, f32::INFINITY, f32::NEG_INFINITY, f32::MAX, f32::MIN, 1.5, -1.5, f32::NAN];
    for x in [1e-45, f32::MIN_POSITIVE, 1e-20, 1e-4] {
        list.extend([x, -x]);
    }
    list.extend(about(1.0, 2));
    list.extend(about(-1.0, 2));
    list
}

/// Indices of refraction that tables have.
fn indices() -> [f32; 10] {
    [1.0, up(1.0), 1.05, 1.1, 1.3, 1.33, 1.5, 1.77, down(2.0), 2.0]
}

/// The cosine beyond which light that leaves is reflected wholly.
fn critical(eta: f32) -> f32 {
    root(1.0 - 1.0 / (eta * eta))
}

// ---- numbers

fn clamped_numbers(rng: &mut Rng, put: Put) {
    let ends = [0.0, -0.0, 1.0, -1.0, f32::INFINITY, f32::NEG_INFINITY, f32::NAN];
    for val in ends {
        for low in ends {
            for high in ends {
                put("clamp_t", Case::of("clamp_t", &[val, low, high]));
            }
        }
    }
    for _ in 0..80 {
        put("clamp_t", any_clamped(rng));
    }
}

fn moments(rng: &mut Rng, put: Put) {
    let mut list = [steps(-3.0, 0.0, 24), steps(0.0, 1.0, 64), steps(1.0, 2.0, 64), steps(2.0, 8.0, 12)].concat();
    list.extend([about(1.0, 8), about(0.0, 2), about(2.0, 3), edges()].concat());
    for exponent in -38..=38 {
        list.push(rng.scale(exponent, exponent) * if rng.chance(50) { 1.0 } else { -1.0 });
    }
    list.extend((0..160).map(|_| any_index(rng)));
    for eta in list {
        put("fresnel_moment1", Case::of("fresnel_moment1", &[eta]));
        put("fresnel_moment2", Case::of("fresnel_moment2", &[eta]));
    }
}

fn phases(rng: &mut Rng, put: Put) {
    for g in steps(-0.9, 0.9, 12) {
        for cos_theta in steps(-1.0, 1.0, 16) {
            put("phase_hg", Case::of("phase_hg", &[cos_theta, g]));
        }
    }
    // the denominator is near zero, or below
    for (g, cos_theta) in [(1.0, -1.0), (-1.0, 1.0), (1.0, 1.0), (-1.0, -1.0)] {
        for g in about(g, 3) {
            for cos_theta in about(cos_theta, 3) {
                put("phase_hg, ends", Case::of("phase_hg", &[cos_theta, g]));
            }
        }
    }
    for g in SPECIAL {
        for cos_theta in SPECIAL {
            put("phase_hg, ends", Case::of("phase_hg", &[cos_theta, g]));
        }
    }
    for _ in 0..80 {
        put("phase_hg, any", any_phase(rng));
    }
}

// ---- the Fresnel term

fn fresnel_terms(put: Put) {
    for eta in indices() {
        for cosine in steps(-1.0, 1.0, 32) {
            put("fr_dielectric, table", Case::of("fr_dielectric", &[cosine, 1.0, eta]));
        }
    }
    for (eta_i, eta_t) in [(1.5, 1.0), (2.0, 1.25), (0.5, 3.0), (0.75, 0.5), (1e-3, 1e3), (1e20, 1e-20), (-1.5, 1.0), (1.0, -0.75)]
    {
        for cosine in steps(-1.0, 1.0, 16) {
            put("fr_dielectric, other indices", Case::of("fr_dielectric", &[cosine, eta_i, eta_t]));
        }
    }
}

fn fresnel_terms_at_the_critical_angle(put: Put) {
    for eta in [up(1.0), 1.01, 1.1, 1.25, 1.33, 1.5, 1.75, 2.0, 10.0] {
        for cosine in about(critical(eta), 5) {
            put("fr_dielectric, critical", Case::of("fr_dielectric", &[-cosine, 1.0, eta]));
            put("fr_dielectric, critical", Case::of("fr_dielectric", &[cosine, eta, 1.0]));
        }
    }
}

fn fresnel_terms_at_the_ends(rng: &mut Rng, put: Put) {
    let f = f32::INFINITY;
    let pairs = [
        (1.0, 1.5),
        (1.5, 1.0),
        (1.0, 1.0),
        (1.0, up(1.0)),
        (1.0, down(1.0)),
        (1.0, 0.0),
        (-0.0, 1.0),
        (0.0, 0.0),
        (1.0, -2.0),
        (-2.0, 1.0),
        (1.0, f),
        (f, 1.0),
        (f, f),
        (1.0, f32::NAN),
        (f32::NAN, 1.0),
        (1e-45, 1e-45),
        (1.0, f32::MAX),
        (f32::MAX, 1.0),
    ];
    for (eta_i, eta_t) in pairs {
        for cosine in cosine_ends() {
            put("fr_dielectric, ends", Case::of("fr_dielectric", &[cosine, eta_i, eta_t]));
        }
    }
    for _ in 0..200 {
        put("fr_dielectric, any", any_fresnel(rng));
    }
}

fn surface_terms(put: Put) {
    for eta in indices().into_iter().chain(steps(1.0, 2.0, 7)) {
        for cosine in steps(-1.0, 1.0, 16) {
            put("sw", Case::of("sw", &[eta, cosine]));
        }
    }
    for eta in indices() {
        for cosine in cosine_ends() {
            put("sw, ends", Case::of("sw", &[eta, cosine]));
        }
        for cosine in about(-critical(eta).max(1e-4), 3) {
            put("sw, critical", Case::of("sw", &[eta, cosine]));
        }
    }
}

/// Each of the two causes, and both.
fn surface_terms_refused(put: Put) {
    let mut etas = [about(1.0, 3), about(2.0, 3), about(-1.0, 1), nans().to_vec()].concat();
    etas.extend([0.0, -0.0, 0.5, 3.0, -1.5, 1e-45, f32::MAX, f32::MIN, f32::INFINITY, f32::NEG_INFINITY]);
    for eta in etas {
        for cosine in [0.5, -0.5, f32::INFINITY].into_iter().chain(nans()) {
            put("sw, refused", Case::of("sw", &[eta, cosine]));
        }
    }
}

// ---- spectra

fn any_spectrum(rng: &mut Rng) -> [f32; 3] {
    let special = rng.chance(40);
    [0; 3].map(|_| if special { rng.any() } else { rng.within(-2.0, 8.0) })
}

fn spectra(rng: &mut Rng, put: Put) {
    for (first, second) in SPECIAL.iter().flat_map(|x| SPECIAL.map(|y| (*x, y))) {
        let other = rng.unit();
        put("add", Case::of("add", &[first, second, other, second, other, first]));
        put("mul", Case::of("mul", &[first, second, other, second, other, first]));
    }
    for _ in 0..60 {
        put("add", any_pair("add", rng));
        put("mul", any_pair("mul", rng));
    }
    for (low, high) in [(0.0, f32::INFINITY), (0.0, 1.0), (-0.0, 0.5), (1.0, -1.0), (f32::NAN, 1.0), (0.0, f32::NAN)] {
        for x in SPECIAL {
            put("clamp", Case::of("clamp", &[x, 0.25, 2.0, low, high]));
            put("clamp", Case::of("clamp", &[-3.0, x, -0.0, low, high]));
            put("clamp", Case::of("clamp", &[0.75, 1.5, x, low, high]));
        }
    }
    for place in 0..3 {
        for x in SPECIAL.into_iter().chain(nans()) {
            let mut s = any_spectrum(rng).map(|x| if x.is_nan() { 0.5 } else { x });
            s[place] = x;
            put("has_nans", Case::of("has_nans", &s));
            for number in 0..3 {
                put("channel", channel(number, s));
            }
        }
    }
    for places in 0..8 {
        let s = [0, 1, 2].map(|place| if places >> place & 1 == 1 { rng.pick(&nans()) } else { rng.unit() });
        put("has_nans", Case::of("has_nans", &s));
    }
}

fn channel(number: u32, s: [f32; 3]) -> Case {
    Case { name: "channel", words: [&[number], &s.map(f32::to_bits)[..]].concat() }
}

// ---- the sums over a beam

/// The names of a class, of single and of multiple scattering.
type Names = [&'static str; 2];

/// sigma_s, sigma_a, g, eta and r.
type Beam = [f32; 5];

/// Both sums.
fn beams(names: Names, arguments: Beam, put: Put) {
    put(names[0], Case::of("beam_diffusion_ss", &arguments));
    put(names[1], Case::of("beam_diffusion_ms", &arguments));
}

fn any_g(rng: &mut Rng) -> f32 {
    if rng.chance(40) {
        rng.pick(&[0.0, -0.0, 0.25, -0.25, 0.5, -0.5, 0.8, -0.8, 0.9, -0.9])
    } else {
        rng.within(-0.95, 0.95)
    }
}

fn table_index(rng: &mut Rng) -> f32 {
    if rng.chance(40) {
        rng.pick(&indices())
    } else {
        rng.within(1.0, 2.0)
    }
}

const KINDS: usize = 10;
const KIND_NAMES: [Names; KINDS] = [
    ["ss, table", "ms, table"],
    ["ss, any scale", "ms, any scale"],
    ["ss, negative", "ms, negative"],
    ["ss, one edge", "ms, one edge"],
    ["ss, two edges", "ms, two edges"],
    ["ss, eta outside", "ms, eta outside"],
    ["ss, g outside", "ms, g outside"],
    ["ss, far", "ms, far"],
    ["ss, tiny distances", "ms, tiny distances"],
    ["ss, any bits", "ms, any bits"],
];
const TABLE: Names = KIND_NAMES[0];

/// A beam as building a table asks for it, mostly of a radius that is not so large that the answer is zero.
fn table_beam(rng: &mut Rng) -> Beam {
    let rows = [2, 3, 5, 10, 20, 50, 100, 128][rng.below(8)];
    let count = [2, 5, 16, 40, 50, 64][rng.below(6)];
    let row = if rng.chance(4) { 0 } else { rng.between(1, rows - 1) };
    let column = if rng.chance(10) { rng.below(count) } else { rng.below(count.min(44)) };
    let sigma_s = albedos(rows)[row];
    [sigma_s, 1.0 - sigma_s, any_g(rng), table_index(rng), radii(count)[column]]
}

/// Coefficients of any size, and a radius of a few mean free paths.
fn scaled_beam(rng: &mut Rng) -> Beam {
    let unit = rng.scale(-12, 12);
    let (sigma_s, sigma_a) = (unit * rng.unit(), if rng.chance(10) { 0.0 } else { unit * rng.unit() * rng.unit() });
    [sigma_s, sigma_a, any_g(rng), table_index(rng), rng.scale(-4, 0) * 4.0 / unit]
}

/// A radius at which the exponentials of one of the sums are the least there are, or with coefficients below zero the largest.
fn far_beam(rng: &mut Rng) -> Beam {
    let [sigma_s, sigma_a, g, eta, _] = table_beam(rng);
    let exponent = rng.within(70.0, 106.0);
    if rng.chance(50) {
        let r = exponent / (eta + root(eta * eta - 1.0));
        return if rng.chance(20) { [-sigma_s, -sigma_a, g, eta, r] } else { [sigma_s, sigma_a, g, eta, r] };
    }
    let sigmap_s = sigma_s * (1.0 - g);
    let sigma_tr = (sigma_a + sigmap_s) * root(3.0 * sigma_a / (2.0 * sigma_a + sigmap_s));
    [sigma_s, sigma_a, g, eta, if sigma_a == 0.0 { 1.0 } else { exponent / sigma_tr }]
}

fn beam(kind: usize, rng: &mut Rng) -> Beam {
    let mut beam = if rng.chance(70) { table_beam(rng) } else { scaled_beam(rng) };
    match kind % KINDS {
        0 => table_beam(rng),
        1 => scaled_beam(rng),
        // a radius below zero, or coefficients, one of them or both
        2 => {
            let places = rng.between(1, 7);
            for (k, place) in [4, 0, 1].into_iter().enumerate() {
                if places >> k & 1 == 1 {
                    beam[place] = -beam[place];
                }
            }
            beam
        }
        3 => {
            beam[rng.below(5)] = rng.pick(&edges());
            beam
        }
        4 => {
            beam[rng.below(5)] = rng.pick(&edges());
            beam[rng.below(5)] = rng.pick(&edges());
            beam
        }
        5 => {
            beam[3] = [rng.unit(), -rng.unit(), -1.0 - rng.unit(), 2.0 + rng.unit(), rng.scale(0, 9)][rng.below(5)];
            beam
        }
        6 => {
            let near = about(rng.pick(&[1.0, -1.0]), 3);
            beam[2] = [rng.pick(&near), rng.within(-4.0, 4.0), rng.scale(0, 20)][rng.below(3)];
            beam
        }
        7 => far_beam(rng),
        // distances whose squares have few digits
        8 => {
            let sigma_a = rng.scale(18, 23);
            [sigma_a * rng.scale(-14, -8), sigma_a, any_g(rng), table_index(rng), rng.scale(-3, 0) / sigma_a]
        }
        _ => [0; 5].map(|_| rng.any()),
    }
}

fn beams_of_tables(rng: &mut Rng, put: Put) {
    for (rows, count) in [(2, 2), (3, 5), (10, 20), (50, 40), (100, 64), (128, 64)] {
        let (albedos, radii) = (albedos(rows), radii(count));
        for row in [0, 1, rows / 2, rows - 1] {
            for column in [0, 1, count / 2, count - 1] {
                beams(TABLE, [albedos[row], 1.0 - albedos[row], any_g(rng), table_index(rng), radii[column]], put);
            }
        }
    }
}

/// The whole of one row, one column, and every third of another.
fn beams_of_rows_and_columns(put: Put) {
    let (albedos, radii) = (albedos(100), radii(64));
    for r in &radii {
        beams(TABLE, [albedos[70], 1.0 - albedos[70], 0.5, 1.33, *r], put);
    }
    for sigma_s in &albedos {
        beams(TABLE, [*sigma_s, 1.0 - sigma_s, 0.0, 1.3, radii[20]], put);
    }
    for sigma_s in albedos.iter().step_by(3) {
        beams(TABLE, [*sigma_s, 1.0 - sigma_s, -0.75, 1.5, radii[0]], put);
    }
}

/// Each argument at each edge, the others as in a table.
fn beams_at_the_ends(rng: &mut Rng, put: Put) {
    for place in 0..5 {
        for edge in edges() {
            let mut beam = table_beam(rng);
            beam[place] = edge;
            beams(KIND_NAMES[3], beam, put);
        }
    }
    // the coefficients' sum is zero, or a zero stands beside a number
    for (sigma_s, sigma_a) in [(0.0, 0.0), (-0.0, -0.0), (0.5, -0.5), (-0.5, 0.5), (0.0, 1.0), (1.0, 0.0), (1.0, -0.0), (-0.0, 1.0)]
    {
        for r in [0.0, 0.5, -0.5] {
            beams(KIND_NAMES[2], [sigma_s, sigma_a, any_g(rng), table_index(rng), r], put);
        }
    }
    // indices about 1 and at zeros
    for eta in [about(1.0, 3), about(-1.0, 3), vec![0.0, -0.0]].concat() {
        for r in [0.0, 0.5] {
            beams(KIND_NAMES[5], [0.75, 0.25, any_g(rng), eta, r], put);
        }
    }
}

fn beams_of_kinds(rng: &mut Rng, put: Put) {
    for (kind, count) in [280, 280, 120, 40, 40, 80, 80, 60, 40, 40].into_iter().enumerate() {
        for _ in 0..count {
            beams(KIND_NAMES[kind], beam(kind, rng), put);
        }
    }
}

// ---- random cases

fn any_clamped(rng: &mut Rng) -> Case {
    let unlike = rng.chance(50);
    Case::of("clamp_t", &[0; 3].map(|_| if unlike { rng.any() } else { rng.within(-2.0, 2.0) }))
}

fn any_index(rng: &mut Rng) -> f32 {
    match rng.below(10) {
        0..=4 => table_index(rng),
        5..=6 => 1.0 / table_index(rng),
        7 => rng.within(-4.0, 8.0),
        8 => rng.pick(&edges()),
        _ => rng.any(),
    }
}

fn any_cosine(rng: &mut Rng) -> f32 {
    match rng.below(10) {
        0..=6 => rng.within(-1.0, 1.0),
        7 => rng.within(-1.5, 1.5),
        8 => rng.pick(&cosine_ends()),
        _ => rng.any(),
    }
}

fn any_phase(rng: &mut Rng) -> Case {
    let g = match rng.below(10) {
        0..=6 => any_g(rng),
        7 => rng.within(-4.0, 4.0),
        8 => rng.pick(&edges()),
        _ => rng.any(),
    };
    Case::of("phase_hg", &[any_cosine(rng), g])
}

fn any_fresnel(rng: &mut Rng) -> Case {
    let eta = table_index(rng);
    let arguments = match rng.below(10) {
        0..=3 => [any_cosine(rng), 1.0, eta],
        4 => [any_cosine(rng), eta, 1.0],
        5 => [-rng.pick(&about(critical(eta).max(1e-4), 8)), 1.0, eta],
        6 => [rng.pick(&about(critical(eta).max(1e-4), 8)), eta, 1.0],
        7 => [any_cosine(rng), rng.scale(-9, 9), rng.scale(-9, 9)],
        8 => [any_cosine(rng), any_index(rng), any_index(rng)],
        _ => [rng.any(), rng.any(), rng.any()],
    };
    Case::of("fr_dielectric", &arguments)
}

fn any_surface_term(rng: &mut Rng) -> Case {
    let eta = if rng.chance(85) { table_index(rng) } else { any_index(rng) };
    Case::of("sw", &[eta, any_cosine(rng)])
}

fn any_pair(name: &'static str, rng: &mut Rng) -> Case {
    Case::of(name, &[any_spectrum(rng), any_spectrum(rng)].concat())
}

fn any_clamped_spectrum(rng: &mut Rng) -> Case {
    let ends = if rng.chance(50) { [0.0, f32::INFINITY] } else { [rng.any(), rng.any()] };
    Case::of("clamp", &[&any_spectrum(rng)[..], &ends].concat())
}

pub fn random(seed: u64, count: u64, put: Put) {
    let rng = &mut Rng(seed);
    for _ in 0..count {
        match rng.below(40) {
            0..=19 => {
                let kind = [0, 0, 0, 0, 0, 0, 0, 0, 1, 1, 1, 1, 1, 2, 2, 3, 3, 4, 5, 5, 6, 7, 7, 8, 9][rng.below(25)];
                let beam = beam(kind, rng);
                if rng.chance(50) {
                    put(KIND_NAMES[kind][0], Case::of("beam_diffusion_ss", &beam));
                } else {
                    put(KIND_NAMES[kind][1], Case::of("beam_diffusion_ms", &beam));
                }
            }
            20..=25 => put("fr_dielectric", any_fresnel(rng)),
            26..=28 => put("phase_hg", any_phase(rng)),
            29 => put("fresnel_moment1", Case::of("fresnel_moment1", &[any_index(rng)])),
            30 => put("fresnel_moment2", Case::of("fresnel_moment2", &[any_index(rng)])),
            31..=33 => put("sw", any_surface_term(rng)),
            34 => put("clamp_t", any_clamped(rng)),
            35 => put("add", any_pair("add", rng)),
            36 => put("mul", any_pair("mul", rng)),
            37 => put("clamp", any_clamped_spectrum(rng)),
            38 => put("has_nans", Case::of("has_nans", &any_spectrum(rng))),
            _ => put("channel", channel(rng.below(3) as u32, any_spectrum(rng))),
        }
    }
}
