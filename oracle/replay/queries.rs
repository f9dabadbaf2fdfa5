//! Radiance, density and drawing: the stored calls and the random histories.
use crate::aim::{alike, any_allowance, any_u, channel, coefficients, points, refused_coefficients, Aim, Channel, HUGE, TINY};
use crate::calls::{sample_sr, Coefficients, Lists, Record};
use crate::history::{History, Put};
use crate::lists::{nodes, values, NODE_KINDS, VALUE_KINDS};
use crate::numbers::{down, nans, up, Rng, SPECIAL};
use crate::protocol::{LENT_CAPACITIES, MARKS, OFFERED};
use crate::rounds::MOST_ROUNDS;
use crate::table::{albedos, radii};
use crate::tables::{
    any_contents, any_medium, any_record, fitting_lengths, outer_eta, outer_g, record, refused_build, shuffled, MEDIA,
};

pub fn stored(put: Put) {
    let rng = &mut Rng(20260801);
    example(put);
    every_set(rng, put);
    full_tables(rng, put);
    between_builds(rng, put);
    by_albedo(put);
    by_radius(put);
    clear_channels(put);
    by_size(put);
    coefficients_refused(put);
    outside_in_some(put);
    vanishing_products(put);
    minus_zeros(put);
    spoilt_profiles(put);
    spoilt_before_missing(put);
    by_mark(put);
    by_u_and_allowance(put);
    by_rounds(rng, put);
    albedos_outside(put);
    other_lists(rng, put);
    lengths_refused(put);
    several_causes(rng, put);
}

/// The radius halfway through the radii, for a sigma_t of 1.
fn middle(m: usize) -> f32 {
    let nodes = radii(m);
    (nodes[m / 2 - 1] + nodes[m / 2]) * 0.5
}

/// A started table with these rows built.
fn started(r: Record, rows: &[u32], history: &mut History) {
    history.lens_of(&r);
    history.start(r);
    rows.iter().for_each(|row| history.build(r, *row));
}

fn whole(r: Record, history: &mut History) {
    let rows: Vec<u32> = (0..r.n).collect();
    started(r, &rows, history);
}

/// Each of the three queries, those of one channel about the one given.
fn all_three(r: Record, c: Coefficients, ch: usize, x: f32, u: f32, history: &mut History) {
    history.sr(r, c, x);
    history.pdf(r, c, ch, x);
    history.draw(r, c, ch, u, MOST_ROUNDS);
}

// ---- tables in part

/// The example of the specification (section 10.3): of three rows only row 2 is built.
fn example(put: Put) {
    let history = &mut History { class: "row 2 alone", put };
    for (m, medium) in [(2, MEDIA[0]), (5, MEDIA[1]), (64, MEDIA[2])] {
        let r = record(3, m, medium);
        let (inside, outside) = (middle(m), radii(m)[m - 1] * 2.0);
        started(r, &[2], history);
        for albedo in [1.0, 0.5, 0.0, 0.9999, up(0.5)] {
            all_three(r, alike(channel(albedo, 1.0)), m % 3, inside, 0.5, history);
        }
        all_three(r, alike(channel(0.5, 1.0)), 1, outside, 0.5, history);
        history.dump();
        for row in [1, 0] {
            history.build(r, row);
            all_three(r, alike(channel(0.5, 1.0)), 0, inside, 0.5, history);
        }
        history.dump();
    }
}

/// Every set of rows of small tables, each built in an order of its own, with rows built twice and refused builds, and asked on each
/// albedo node and between two.
fn every_set(rng: &mut Rng, put: Put) {
    let history = &mut History { class: "every set of rows", put };
    for (n, m, all) in [(2, 2, true), (3, 3, true), (4, 4, true), (5, 3, false), (6, 2, false)] {
        let scale = [1.0, 2.0, 0.5][n % 3];
        for set in 0..1usize << n {
            if n == 6 && set % 5 != 3 {
                continue;
            }
            let r = record(n, m, MEDIA[set % MEDIA.len()]);
            let rows: Vec<u32> = shuffled(n, rng).into_iter().filter(|row| set >> row & 1 == 1).collect();
            started(r, &rows, history);
            if rng.chance(40) {
                refused_build(r, rng, history);
            }
            if rng.chance(30) && set != 0 {
                history.build(r, rows[0]);
            }
            for (k, albedo) in points(&albedos(n)).into_iter().enumerate() {
                let (c, x) = (alike(channel(albedo, scale)), middle(m) / scale);
                match (all, (k + set) % 3) {
                    (true, _) => all_three(r, c, k % 3, x, 0.375, history),
                    (_, 0) => history.sr(r, c, x),
                    (_, 1) => history.pdf(r, c, k % 3, x),
                    _ => history.draw(r, c, k % 3, 0.375, 30),
                }
            }
            if set % 3 == 0 {
                history.dump();
            }
        }
    }
}

fn any_query(aim: &Aim, rng: &mut Rng, history: &mut History) {
    let c = aim.any_coefficients(rng);
    match rng.below(3) {
        0 => history.sr(aim.r, c, aim.any_radius(&c, rng)),
        1 => history.pdf(aim.r, c, rng.below(3), aim.any_radius(&c, rng)),
        _ => history.draw(aim.r, c, rng.below(3), any_u(rng), any_allowance(rng)),
    }
    if rng.chance(4) {
        history.dump();
    }
}

/// A query whose record is not the table's.
fn strange_query(aim: &Aim, rng: &mut Rng, history: &mut History) {
    let r = aim.r;
    let r = match rng.below(7) {
        0 => Record { n: r.n + 1, ..r },
        1 => Record { m: r.m - 1, ..r },
        2 => Record { n: [0, 1, 129, u32::MAX][rng.below(4)], ..r },
        3 => Record { m: [0, 1, 65, u32::MAX][rng.below(4)], ..r },
        4 => Record { g: rng.pick(&outer_g()), ..r },
        5 => Record { eta: rng.pick(&outer_eta()), ..r },
        // accepted, and no matter
        _ => Record { g: 0.125, eta: 1.25, ..r },
    };
    any_query(&Aim { r, ..aim.clone() }, rng, history);
}

/// A step of a history on a started table.
fn any_step(aim: &Aim, rng: &mut Rng, history: &mut History) {
    let row = rng.below(aim.r.n as usize) as u32;
    match rng.below(20) {
        0..=3 => history.build(aim.r, row),
        4 => refused_build(aim.r, rng, history),
        5 => history.dump(),
        6 => strange_query(aim, rng, history),
        _ => any_query(aim, rng, history),
    }
}

fn any_tallied(r: Record, steps: usize, rng: &mut Rng, history: &mut History) {
    history.lens_of(&r);
    if r.n * r.m < 40 && rng.chance(25) {
        any_contents(&r, rng, history);
    }
    history.start(r);
    let aim = Aim::started(r);
    let rows = shuffled(r.n as usize, rng);
    let built = if rng.chance(70) { rng.between(r.n as usize / 2, r.n as usize) } else { 0 };
    rows[..built].iter().for_each(|row| history.build(r, *row));
    (0..steps).for_each(|_| any_step(&aim, rng, history));
    history.dump();
}

fn between_builds(rng: &mut Rng, put: Put) {
    let history = &mut History { class: "queries between builds", put };
    for k in 0..44 {
        let r = record(rng.between(2, 6), rng.between(2, 6), if k % 2 == 0 { MEDIA[k % 6] } else { any_medium(rng) });
        any_tallied(r, 20, rng, history);
    }
    for (n, m) in [(40, 9), (128, 3), (12, 64)] {
        any_tallied(record(n, m, MEDIA[n % 6]), 30, rng, history);
    }
}

// ---- full tables

fn full_tables(rng: &mut Rng, put: Put) {
    let history = &mut History { class: "full tables", put };
    let sizes = [(2, 2), (3, 5), (7, 3), (5, 64), (20, 40), (33, 17), (100, 64)];
    for (k, (n, m)) in sizes.into_iter().enumerate() {
        for medium in [MEDIA[k % 6], MEDIA[(k + 3) % 6]] {
            if n > 7 && medium == MEDIA[k % 6] {
                continue;
            }
            let r = record(n, m, medium);
            whole(r, history);
            let aim = Aim::started(r);
            (0..if n > 7 { 160 } else { 60 }).for_each(|_| any_query(&aim, rng, history));
        }
    }
}

/// On each albedo node, beside it and between two; albedos of 0 and 1, of zeros of either sign.
fn by_albedo(put: Put) {
    let history = &mut History { class: "by albedo", put };
    let r = record(6, 8, MEDIA[1]);
    whole(r, history);
    let mut channels: Vec<Channel> = points(&albedos(6)).into_iter().map(|albedo| channel(albedo, 1.0)).collect();
    for node in albedos(6) {
        channels.push(channel(up(node).min(1.0), 2.0));
        channels.push(channel(down(node).max(0.0), 0.25));
    }
    for zero in [0.0, -0.0] {
        channels.extend([(zero, 1.0), (1.0, zero), (zero, zero), (zero, 1e-45), (1e-45, zero)]);
    }
    channels.extend([(1.0, 1e-45), (1.0, 1e-38), (1e-45, 1.0), (3e-8, 1.0), (1.0, 1.0), (1e-45, 1e-45), (3e-45, 6e-45)]);
    for (k, channel) in channels.into_iter().enumerate() {
        let sigma_t = channel.0 + channel.1;
        all_three(r, alike(channel), k % 3, middle(8) / sigma_t, 0.625, history);
    }
}

/// On each radius node, beside it and between two, and all that is outside.
fn by_radius(put: Put) {
    let history = &mut History { class: "by radius", put };
    let r = record(4, 6, MEDIA[2]);
    whole(r, history);
    let nodes = radii(6);
    let mut list = points(&nodes);
    list.extend(nodes.iter().flat_map(|x| [up(*x), down(*x)]));
    list.extend(SPECIAL);
    list.extend(nans());
    list.extend([nodes[5] * 1.5, 1e-30, 1e-20, -1e-20, 1.0, 1e30]);
    for x in list {
        for (k, sigma_t) in [1.0, 4.0, 1e-3].into_iter().enumerate() {
            let c = alike(channel([0.5, 0.0, 1.0][k], sigma_t));
            if k < 2 || x.abs() < 1.0 {
                history.sr(r, c, x / sigma_t);
                history.pdf(r, c, k, x / sigma_t);
            }
        }
    }
    // no radius reaches a clear channel's end, but an infinite one
    for x in [f32::INFINITY, f32::NEG_INFINITY, f32::NAN, f32::MAX, f32::MIN, 1.0, -1.0, 0.0, -0.0] {
        for zero in [0.0, -0.0] {
            history.sr(r, alike((zero, zero)), x);
            history.pdf(r, alike((zero, zero)), 1, x);
        }
    }
}

/// One, two and all channels clear, on a table without rows, with the row that they need, and with all.
fn clear_channels(put: Put) {
    let history = &mut History { class: "clear channels", put };
    let r = record(3, 4, MEDIA[3]);
    let x = middle(4);
    for rows in [&[][..], &[0], &[1, 2], &[0, 1, 2]] {
        started(r, rows, history);
        for clear in 0..8 {
            let zeros = [(0.0, 0.0), (-0.0, 0.0), (-0.0, -0.0)];
            let c = coefficients([0, 1, 2].map(|ch| if clear >> ch & 1 == 1 { zeros[ch] } else { channel(0.5, 1.0) }));
            history.sr(r, c, x);
            for ch in 0..3 {
                history.pdf(r, c, ch, x);
                history.draw(r, c, ch, 0.25, 1);
                history.draw(r, c, ch, 0.25, 1000);
            }
        }
        let c = alike((0.0, 0.0));
        for (u, allowance) in [(f32::NAN, 1), (up(1.0), 1), (-0.0, 1), (1.0, 1000), (0.5, 0), (0.5, 1001)] {
            history.draw(r, c, 1, u, allowance);
        }
        let c = coefficients([(0.0, 0.0), (1.0, -1.0), (0.0, 0.0)]);
        all_three(r, c, 0, x, 0.5, history);
        history.dump();
    }
}

/// Coefficients as small and as huge as there are; squares that vanish and that overflow; sums that just do not.
fn by_size(put: Put) {
    let history = &mut History { class: "by size", put };
    let r = record(3, 5, MEDIA[4]);
    whole(r, history);
    let nodes = radii(5);
    for (k, scale) in HUGE.into_iter().chain(TINY).enumerate() {
        for (a, s) in [(scale, 0.0), (0.0, scale), (scale * 0.5, scale * 0.5)] {
            let sigma_t = a + s;
            let xs = [nodes[2] / sigma_t, nodes[1] * 0.5 / sigma_t, 0.0, -0.0, 1.0, 1e30];
            for x in xs {
                history.sr(r, alike((a, s)), x);
            }
            for x in [xs[0], xs[1], 0.0] {
                history.pdf(r, alike((a, s)), k % 3, x);
            }
            history.draw(r, alike((a, s)), k % 3, 0.7, 1000);
        }
        // in one channel only, whose optical radius is outside
        let mut channels = [channel(0.5, 1.0); 3];
        channels[k % 3] = (0.0, scale);
        history.sr(r, coefficients(channels), nodes[3]);
        history.pdf(r, coefficients(channels), k % 3, nodes[3]);
    }
}

// ---- coefficients refused

/// Channels whose sums are infinite, and the nearest that are not.
fn great_sums() -> [Channel; 6] {
    let half = f32::from_bits(0x7effffff);
    [(f32::MAX, f32::MAX), (f32::MAX, 1e32), (half, up(half)), (half, half), (f32::MAX, 1e30), (up(half), up(half))]
}

fn coefficients_refused(put: Put) {
    let history = &mut History { class: "coefficients refused", put };
    let r = record(2, 3, MEDIA[5]);
    whole(r, history);
    let spoil = |place: usize, x: f32| {
        let mut c = alike(channel(0.5, 1.0));
        if place < 3 {
            c.sigma_a[place] = x;
        } else {
            c.sigma_s[place - 3] = x;
        }
        c
    };
    for place in 0..6 {
        for (k, x) in refused_coefficients().into_iter().enumerate() {
            // also in a channel that is not asked for
            let c = spoil(place, x);
            all_three(r, c, (place + k) % 3, middle(3), 0.5, history);
        }
        for x in [-0.0, f32::MAX, 1e-45] {
            all_three(r, spoil(place, x), place % 3, middle(3), 0.5, history);
        }
        history.dump();
    }
    for ch in 0..3 {
        for (a, s) in great_sums() {
            let mut channels = [channel(0.5, 1.0); 3];
            channels[ch] = (a, s);
            all_three(r, coefficients(channels), (ch + 1) % 3, middle(3), 0.5, history);
        }
    }
}

// ---- needed rows

/// Three channels that need a row each, of which a growing radius leaves fewer inside.
fn outside_in_some(put: Put) {
    let history = &mut History { class: "outside in some channels", put };
    let last = radii(4)[3];
    let nodes = albedos(3);
    let c = coefficients([channel(nodes[0], 1.0), channel(nodes[1], 16.0), channel(nodes[2], 256.0)]);
    for set in 0..8u32 {
        let r = record(3, 4, MEDIA[set as usize % 6]);
        let rows: Vec<u32> = (0..3).filter(|row| set >> row & 1 == 1).collect();
        started(r, &rows, history);
        for x in [last * 2.0, last, last * 0.5, last / 16.0, last / 32.0, last / 256.0, last / 512.0, 0.0, -last, f32::NAN] {
            history.sr(r, c, x);
            (0..3).for_each(|ch| history.pdf(r, c, ch, x));
        }
        history.dump();
    }
}

/// A row of the least weight there is: it is needed, though each product with a radius weight rounds to 0.
fn vanishing_products(put: Put) {
    let history = &mut History { class: "vanishing products", put };
    let albedos = [1e-45, 3e-45, 1e-44, 1e-30];
    for (n, m) in [(2, 2), (3, 2), (4, 2), (2, 3), (5, 6)] {
        for rows in [&[][..], &[0], &[1], &[0, 1]] {
            let r = record(n, m, MEDIA[n % 6]);
            started(r, rows, history);
            for (k, albedo) in albedos.into_iter().enumerate() {
                for x in [0.00125, 0.0025, 0.0] {
                    history.sr(r, alike((1.0, albedo)), x);
                    history.pdf(r, alike((1.0, albedo)), k % 3, x);
                }
                history.draw(r, alike((1.0, albedo)), k % 3, 0.5, 100);
            }
        }
    }
    // weights beside a node that is not the first, from nodes that are as near to each other as can be
    let tiny = f32::from_bits(1);
    let aim = Aim { r: record(4, 2, MEDIA[0]), rho_samples: vec![-1.0, 0.0, 0.25, 1.0], radius_samples: vec![0.0, 1.0] };
    for set in [0u8, 2, 4, 6, 7, 14, 15] {
        let marks: Vec<u8> = (0..4).map(|row| set >> row & 1).collect();
        let own = Own { marks, ..Own::of(&aim, 2, &mut Rng(5)) };
        own.lend(history);
        for albedo in [0.0, tiny, 2.0 * tiny, 1e-38] {
            for x in [0.5, 1.0] {
                all_three(aim.r, alike((1.0, albedo)), 2, x, 0.5, history);
            }
        }
    }
}

// ---- lists of one's own

/// The six lists, whatever they hold.
#[derive(Clone)]
struct Own {
    aim: Aim,
    profile: Vec<f32>,
    rho_eff: Vec<f32>,
    profile_cdf: Vec<f32>,
    marks: Vec<u8>,
}

impl Own {
    /// All rows marked, and values of a kind.
    fn of(aim: &Aim, kind: usize, rng: &mut Rng) -> Own {
        let (n, m) = (aim.r.n as usize, aim.r.m as usize);
        let mut profile_cdf = values(kind, n * m, rng);
        if kind < 5 {
            // rising, as sums do
            for row in profile_cdf.chunks_mut(m) {
                row[0] = 0.0;
                (1..m).for_each(|j| row[j] = row[j - 1] + row[j].abs());
            }
        }
        Own { aim: aim.clone(), profile: values(kind, n * m, rng), rho_eff: values(kind, n, rng), profile_cdf, marks: vec![1; n] }
    }

    fn lend(&self, history: &mut History) {
        history.lens_of(&self.aim.r);
        history.nodes(&self.aim.rho_samples, &self.aim.radius_samples);
        [(2, &self.profile), (3, &self.rho_eff), (4, &self.profile_cdf)]
            .into_iter()
            .for_each(|(k, list)| history.floats(k, 0, list));
        history.marks(0, &self.marks);
    }

    /// How many rounds a draw makes, none if it does not end within the most that are allowed.
    fn rounds(&self, c: &Coefficients, ch: usize, u: f32) -> Option<u32> {
        let mut own = self.clone();
        let lists = Lists {
            rho_samples: &mut own.aim.rho_samples,
            radius_samples: &mut own.aim.radius_samples,
            profile: &mut own.profile,
            rho_eff: &mut own.rho_eff,
            profile_cdf: &mut own.profile_cdf,
            marks: &mut own.marks,
        };
        sample_sr(&self.aim.r, c, ch, u, MOST_ROUNDS, &lists).ok().map(|(_, rounds)| rounds)
    }
}

fn aim(rho_samples: &[f32], radius_samples: &[f32]) -> Aim {
    let r = record(rho_samples.len(), radius_samples.len(), MEDIA[rho_samples.len() % 6]);
    Aim { r, rho_samples: rho_samples.to_vec(), radius_samples: radius_samples.to_vec() }
}

/// A profile of 0 over a radius below 0 is −0, which the clamp keeps; a number below 0 it raises.
fn minus_zeros(put: Put) {
    let history = &mut History { class: "radii below 0", put };
    let aim = aim(&[0.0, 0.5, 1.0], &[-2.0, -1.0, -0.5, 0.5, 1.0]);
    for value in [0.0, -0.0, 1.0, -1.0, 1e-45, f32::INFINITY] {
        let own = Own { profile: vec![value; 15], ..Own::of(&aim, 2, &mut Rng(3)) };
        own.lend(history);
        for x in [-2.0, -1.5, -1.0, -0.5, -0.25, -0.0, 0.0, 0.25, 1.0] {
            history.sr(aim.r, alike(channel(0.5, 1.0)), x);
            history.pdf(aim.r, alike(channel(0.5, 1.0)), 0, x);
            history.sr(aim.r, coefficients([channel(0.25, 1.0), channel(1.0, 1e-30), (0.0, 0.0)]), x);
        }
        history.draw(aim.r, alike(channel(0.5, 2.0)), 1, 0.25, 1000);
        history.dump();
    }
}

/// A NaN or an infinity at each place of a profile, and in the other lists: it shows where the place has a weight, and not else.
fn spoilt_profiles(put: Put) {
    let history = &mut History { class: "spoilt profiles", put };
    let (n, m) = (3, 3);
    let aim = aim(&albedos(n), &radii(m));
    let own = Own::of(&aim, 2, &mut Rng(11));
    own.lend(history);
    for place in 0..n * m {
        for (k, x) in [f32::NAN, f32::INFINITY, f32::NEG_INFINITY].into_iter().enumerate() {
            history.floats(2, place, &[x]);
            for (i, albedo) in points(&aim.rho_samples).into_iter().enumerate() {
                for (j, radius) in points(&aim.radius_samples).into_iter().enumerate() {
                    let c = alike(channel(albedo, 1.0));
                    if (i + j + place) % 3 == k {
                        history.sr(aim.r, c, radius);
                    }
                    if (i + j + place) % 9 == k {
                        history.pdf(aim.r, c, j % 3, radius);
                        history.draw(aim.r, c, j % 3, 0.5, 50);
                    }
                }
            }
            history.floats(2, place, &own.profile[place..=place]);
        }
    }
    for (list, places) in [(3, n), (4, n * m)] {
        for place in 0..places {
            for x in [f32::NAN, f32::INFINITY, 0.0, -1.0] {
                history.floats(list, place, &[x]);
                let albedo = aim.rho_samples[if list == 3 { place } else { place / m }];
                for c in [alike(channel(albedo, 1.0)), alike(channel(0.5, 1.0))] {
                    if list == 3 {
                        history.pdf(aim.r, c, 0, middle(m));
                    } else {
                        history.draw(aim.r, c, 0, 0.5, 50);
                    }
                }
            }
            let good = if list == 3 { &own.rho_eff } else { &own.profile_cdf };
            history.floats(list, place, &good[place..=place]);
        }
    }
    // 0 times infinity: the square overflows where the sum is 0, or the channel outside
    history.fill(2, 0);
    for ch in 0..3 {
        for x in [0.0, 1e-25, 1e-20, 1.0, -1.0, f32::NAN] {
            let mut channels = [channel(0.5, 1.0); 3];
            channels[ch] = (0.0, 1e25);
            history.sr(aim.r, coefficients(channels), x);
            history.pdf(aim.r, coefficients(channels), ch, x);
        }
    }
    history.dump();
}

/// A channel whose value is a NaN, and a row that is missing in another: 11, in whatever order they stand.
fn spoilt_before_missing(put: Put) {
    let history = &mut History { class: "11 before 12", put };
    let aim = aim(&albedos(4), &radii(3));
    let mut own = Own::of(&aim, 2, &mut Rng(12));
    own.profile[..3].fill(f32::NAN);
    own.marks = vec![1, 0, 1, 1];
    own.lend(history);
    let nodes = &aim.rho_samples;
    let (nan, missing, good) = (channel(nodes[0], 1.0), channel(nodes[1], 1.0), channel(nodes[3], 1.0));
    let overflowing = (0.0, 1e25);
    for spoilt in [nan, overflowing] {
        for channels in [
            [spoilt, missing, good],
            [spoilt, good, missing],
            [missing, spoilt, good],
            [good, spoilt, missing],
            [missing, good, spoilt],
            [good, missing, spoilt],
            [spoilt, good, good],
            [good, spoilt, good],
            [good, good, spoilt],
            [spoilt, spoilt, missing],
            [missing, missing, missing],
            [good, good, good],
        ] {
            for x in [middle(3), 1.0] {
                history.sr(aim.r, coefficients(channels), x);
                history.pdf(aim.r, coefficients(channels), 0, x);
            }
        }
    }
    history.dump();
}

/// Any mark but 1 says that the row is not built.
fn by_mark(put: Put) {
    let history = &mut History { class: "by mark", put };
    let aim = aim(&albedos(5), &radii(3));
    Own::of(&aim, 2, &mut Rng(13)).lend(history);
    for row in 0..5 {
        for mark in [0, 1, 2, 3, 128, 129, 254, 255] {
            history.marks(row, &[mark]);
            for (k, albedo) in points(&aim.rho_samples).into_iter().enumerate() {
                let c = alike(channel(albedo, 1.0));
                match (k + mark as usize + row) % 9 {
                    0 | 3 => history.sr(aim.r, c, middle(3)),
                    1 | 4 => history.pdf(aim.r, c, k % 3, middle(3)),
                    2 | 5 => history.draw(aim.r, c, k % 3, 0.5, 50),
                    _ => {}
                }
            }
        }
        history.marks(row, &[1]);
    }
}

// ---- draws

fn by_u_and_allowance(put: Put) {
    let history = &mut History { class: "by u and allowance", put };
    let r = record(4, 6, MEDIA[0]);
    whole(r, history);
    let mut us = vec![0.0, -0.0, 1.0, down(1.0), up(1.0), -1e-45, 1e-45, 1e-20, 0.25, 0.5, 0.75, 0.999, f32::INFINITY, -1.0, 2.0];
    us.extend(nans());
    for u in us {
        for albedo in [0.0, 0.3, 0.99, 1.0] {
            history.draw(r, alike(channel(albedo, 1.0)), 1, u, MOST_ROUNDS);
        }
        for allowance in [0, 1, 1001] {
            history.draw(r, alike(channel(0.6, 2.0)), 2, u, allowance);
        }
    }
    for k in 0..16 {
        let (albedo, u) = (0.3 + 0.04 * k as f32, (k as f32 * 0.37 + 0.11) % 1.0);
        for allowance in [0, 1, 2, 3, 4, 5, 6, 7, 999, 1000, 1001, 65536, u32::MAX] {
            history.draw(r, alike(channel(albedo, 1.0)), k % 3, u, allowance);
        }
    }
    history.dump();
}

const DRAWN_KINDS: usize = 6;

/// Lists from which draws take few rounds or many, with arguments.
fn drawn(kind: usize, rng: &mut Rng) -> (Own, Coefficients, f32) {
    let (n, m) = (rng.between(2, 3), rng.between(2, 5));
    let mut aim = aim(&albedos(n), &nodes([1, 0, 12, 12, 0, 0][kind], m, rng));
    aim.r = record(n, m, MEDIA[kind]);
    let mut own = Own::of(&aim, 2, rng);
    let mut c = alike(channel(rng.unit(), rng.scale(-1, 1)));
    let mut u = rng.unit();
    match kind {
        0 => {}
        // numbers of any size
        1 => own = Own::of(&aim, 4, rng),
        2 => {
            own.profile = values(rng.between(5, VALUE_KINDS - 1), n * m, rng);
            own.profile_cdf = values(rng.between(2, VALUE_KINDS - 1), n * m, rng);
        }
        // Newton's steps are short where the slope is great, and the draw can stay where it is
        3 => {
            let scale = rng.scale(0, 9);
            own.profile = (0..n * m).map(|_| scale * rng.unit() * rng.unit() * rng.unit()).collect();
            own.profile_cdf = (0..n * m).map(|i| scale * (i % m) as f32 * rng.unit()).collect();
        }
        4 => own.profile = (0..n * m).map(|_| rng.unit() * 4.0 - 1.0).collect(),
        // the integral starts as the fourth power, where each step takes off a quarter only
        _ => {
            let scale = rng.scale(0, 30);
            own.profile = (0..n * m).map(|i| scale * [1.0, 0.0, 1.0, 6.0][i % m % 4]).collect();
            own.profile_cdf = (0..n * m).map(|i| if i % m < 2 { 0.0 } else { 1.0 }).collect();
            c = alike(channel(own.aim.rho_samples[rng.below(n)], 1.0));
            u = rng.scale(-12, -1).min(1.0);
        }
    }
    (own, c, u)
}

/// Draws sought by their number of rounds, each with just enough allowance, one too few, and plenty; and such as do not end.
fn by_rounds(rng: &mut Rng, put: Put) {
    let history = &mut History { class: "by rounds", put };
    let ends = [1, 2, 3, 4, 5, 6, 8, 11, 15, 20, 21, 22, 24, 28, 33, 40, 60, MOST_ROUNDS, u32::MAX];
    let mut wanted = [4usize; 19];
    wanted[17] = 0;
    for turn in 0..400_000 {
        let (own, c, u) = drawn(turn % DRAWN_KINDS, rng);
        let ch = rng.below(3);
        let rounds = own.rounds(&c, ch, u).unwrap_or(u32::MAX);
        let place = ends.iter().position(|end| rounds <= *end).unwrap_or(0);
        if wanted[place] == 0 || rounds == 0 {
            continue;
        }
        wanted[place] -= 1;
        own.lend(history);
        let allowances = if rounds == u32::MAX { [1, 21, MOST_ROUNDS] } else { [rounds, rounds - 1, MOST_ROUNDS] };
        allowances.into_iter().for_each(|allowance| history.draw(own.aim.r, c, ch, u, allowance));
    }
    assert!(wanted.iter().all(|left| *left == 0), "not enough draws of each number of rounds: {:?}", wanted);
}

/// An albedo that is outside needs no row: 0 from each query, and no round.
fn albedos_outside(put: Put) {
    let history = &mut History { class: "albedos outside", put };
    for rho_samples in
        [vec![0.25, 0.5, 0.75], vec![2.0, 3.0], vec![-2.0, -1.0], vec![f32::from_bits(1), 0.5], vec![-1.0, -0.0, 0.5]]
    {
        let aim = aim(&rho_samples, &radii(3));
        let mut own = Own::of(&aim, 2, &mut Rng(14));
        for mark in [0, 1] {
            own.marks.fill(mark);
            own.lend(history);
            for c in [(1.0, 0.0), (1.0, 1e-45), (0.9, 0.1), (0.5, 0.5), (0.1, 0.9), (0.0, 1.0), (0.0, 4.0), (0.0, 0.0), (0.0, 1e25)]
            {
                all_three(aim.r, alike(c), 1, middle(3), 0.5, history);
            }
            history.draw(aim.r, alike((0.0, 1.0)), 0, 0.5, 1);
            history.draw(aim.r, alike((0.0, 1.0)), 0, 1.5, 1);
            history.draw(aim.r, alike((0.0, 1.0)), 0, 0.5, 0);
            // a channel outside beside one that is not
            for channels in [[(0.0, 1.0), (0.5, 0.5), (1.0, 0.0)], [(0.0, 1.0), (1.0, 0.0), (0.0, 1.0)]] {
                history.sr(aim.r, coefficients(channels), middle(3));
            }
        }
    }
}

/// Lists of any kind and any contents, with nodes that are in order.
fn any_own(rng: &mut Rng) -> Own {
    let (n, m) = (rng.between(2, 5), rng.between(2, 5));
    let rho_samples = match rng.below(10) {
        0..=4 => albedos(n),
        5 => (0..n).map(|i| 0.1 + 0.8 * i as f32 / n as f32).collect(),
        6 => (0..n).map(|i| i as f32 / (n - 1) as f32 * 1.5 - 0.25).collect(),
        _ => nodes(rng.below(NODE_KINDS), n, rng),
    };
    let radius_samples = if rng.chance(50) { radii(m) } else { nodes(rng.below(NODE_KINDS), m, rng) };
    let aim = Aim { r: record(n, m, any_medium(rng)), rho_samples, radius_samples };
    let kind = if rng.chance(50) { 2 } else { rng.below(VALUE_KINDS) };
    let mut own = Own::of(&aim, kind, rng);
    if rng.chance(30) {
        own.marks = (0..n).map(|_| [0, 1, 1, 1, 2, 255][rng.below(6)]).collect();
    }
    if rng.chance(30) {
        let at = rng.below(n * m);
        own.profile[at] = rng.any();
    }
    if rng.chance(10) {
        let at = rng.below(n * m);
        own.profile_cdf[at] = rng.any();
    }
    own
}

fn other_lists(rng: &mut Rng, put: Put) {
    let history = &mut History { class: "other lists", put };
    for _ in 0..45 {
        let own = any_own(rng);
        own.lend(history);
        (0..10).for_each(|_| any_query(&own.aim, rng, history));
    }
}

// ---- refusals of all calls

/// Each list too short and too long by one; N and M exchanged.
fn lengths_refused(put: Put) {
    let history = &mut History { class: "query, lengths refused", put };
    let r = record(4, 3, MEDIA[1]);
    whole(r, history);
    let right = fitting_lengths(&r);
    let c = alike(channel(0.5, 1.0));
    for list in 0..6 {
        for length in [right[list] - 1, right[list] + 1, 0, LENT_CAPACITIES[list]] {
            let mut lengths = right;
            lengths[list] = length;
            history.lens(lengths);
            all_three(r, c, list % 3, middle(3), 0.5, history);
        }
        history.dump();
    }
    history.lens(right);
    all_three(record(3, 4, MEDIA[1]), c, 0, middle(3), 0.5, history);
    all_three(r, c, 0, middle(3), 0.5, history);
}

/// The numbers that each query can be refused with.
fn causes_of(query: usize) -> &'static [u32] {
    let name = ["sr", "pdf", "draw"][query];
    OFFERED.into_iter().find(|(offered, _)| *offered == name).map_or(&[], |(_, causes)| causes)
}

/// A query of a kind that is refused for these causes, on lists that are put right again where they are spoilt.
fn with_causes(query: usize, causes: &[u32], rng: &mut Rng, history: &mut History) {
    let has = |number: u32| causes.contains(&number);
    let (n, m) = (rng.between(3, 5), rng.between(3, 5));
    let aim = aim(&albedos(n), &radii(m));
    let mut own = Own::of(&aim, 2, rng);
    // between the last two nodes row 0 is not needed, and row n - 1 is; a draw of nothing but 0 takes 21 rounds
    let row = n - 1;
    if has(13) {
        own.profile.fill(0.0);
        own.profile_cdf = (0..n * m).map(|i| (i % m) as f32).collect();
    }
    if has(12) {
        own.profile[row * m..].fill(f32::NAN);
    }
    if has(11) {
        own.marks[if has(12) { n - 2 } else { row }] = rng.below(2) as u8 * 2;
    }
    if has(6) {
        let nodes = if rng.chance(50) { &mut own.aim.rho_samples } else { &mut own.aim.radius_samples };
        let at = rng.below(nodes.len());
        nodes[at] =
            if at == 0 { rng.pick(&[f32::NAN, f32::INFINITY, 1e9]) } else { rng.pick(&[f32::NAN, f32::NEG_INFINITY, -1.0]) };
    }
    own.lend(history);
    let mut r = aim.r;
    if has(1) {
        r.n = [0, 1, 129, u32::MAX][rng.below(4)];
    }
    if has(2) {
        r.m = [0, 1, 65, u32::MAX][rng.below(4)];
    }
    if has(3) {
        r.g = rng.pick(&outer_g());
    }
    if has(4) {
        r.eta = rng.pick(&outer_eta());
    }
    let mut lengths = fitting_lengths(&r);
    if has(5) {
        let list = rng.below(6);
        let longer = lengths[list] == 0 || lengths[list] < LENT_CAPACITIES[list] && rng.chance(50);
        lengths[list] = if longer { lengths[list] + 1 } else { lengths[list] - 1 };
    }
    history.lens(lengths);
    let between = (aim.rho_samples[n - 2] + aim.rho_samples[n - 1]) * 0.5;
    let mut c = alike(channel(between, 1.0));
    if has(8) {
        c.sigma_s[rng.below(3)] = rng.pick(&refused_coefficients());
    }
    let u = if has(9) { rng.pick(&[f32::NAN, -1e-45, up(1.0), f32::INFINITY]) } else { 0.75 };
    let allowance = if has(10) { [0, 1001, u32::MAX][rng.below(3)] } else { [1000, 3][has(13) as usize] };
    match query {
        0 => history.sr(r, c, middle(m)),
        1 => history.pdf(r, c, rng.below(3), middle(m)),
        _ => history.draw(r, c, rng.below(3), u, allowance),
    }
}

/// Each cause, and each two, so that the order of the checks shows.
fn several_causes(rng: &mut Rng, put: Put) {
    let history = &mut History { class: "query, several causes", put };
    for query in 0..3 {
        let causes = causes_of(query);
        with_causes(query, &[], rng, history);
        for (k, cause) in causes.iter().enumerate() {
            with_causes(query, &[*cause], rng, history);
            history.dump();
            for other in &causes[k + 1..] {
                with_causes(query, &[*cause, *other], rng, history);
            }
        }
    }
}

/// Each list filled, and an entry of it written, after a start: from then on the lists count, and not what was built.
pub fn touched_tables(put: Put) {
    let history = &mut History { class: "touched tables", put };
    let r = record(3, 3, MEDIA[1]);
    let c = alike(channel(0.75, 1.0));
    for list in 0..6 {
        for word in if list == MARKS { [0, 1, 255] } else { [0, 0x3f000000, 0x7fc00000] } {
            for filled in [true, false] {
                whole(r, history);
                if filled {
                    history.fill(list, word);
                } else {
                    history.words(list, 2, &[word]);
                }
                all_three(r, c, list % 3, middle(3), 0.5, history);
                history.build_shown(r, 1);
                all_three(r, c, list % 3, middle(3), 0.5, history);
            }
        }
    }
}

/// A small table that is started and built, and queries of it with other lines between.
pub fn with_others_between(rng: &mut Rng, put: Put, other: &mut dyn FnMut(&mut Rng, Put)) {
    let r = record(rng.between(2, 5), rng.between(2, 5), any_medium(rng));
    whole(r, &mut History { class: "others between", put });
    for _ in 0..rng.between(5, 20) {
        other(rng, put);
        let history = &mut History { class: "others between", put };
        any_step(&Aim::started(r), rng, history);
        if rng.chance(20) {
            history.dump();
        }
    }
}

// ---- random histories

fn any_causes(rng: &mut Rng, put: Put) {
    let history = &mut History { class: "query, causes", put };
    for _ in 0..3 {
        let query = rng.below(3);
        let some: Vec<u32> = causes_of(query).iter().copied().filter(|_| rng.chance(20)).collect();
        with_causes(query, &some, rng, history);
        history.dump();
    }
}

fn any_lists(rng: &mut Rng, put: Put) {
    let history = &mut History { class: "query, other lists", put };
    let own = any_own(rng);
    own.lend(history);
    for _ in 0..rng.between(5, 20) {
        match rng.below(30) {
            0 => history.build(own.aim.r, rng.below(own.aim.r.n as usize + 1) as u32),
            1 => history.marks(rng.below(own.marks.len()), &[[0, 1, 2, 255][rng.below(4)]]),
            2 => history.floats(2, rng.below(own.profile.len()), &[rng.any()]),
            3 => strange_query(&own.aim, rng, history),
            _ => any_query(&own.aim, rng, history),
        }
    }
    history.dump();
}

fn any_drawn(rng: &mut Rng, put: Put) {
    let history = &mut History { class: "query, many rounds", put };
    let (own, c, u) = drawn(rng.below(DRAWN_KINDS), rng);
    own.lend(history);
    let ch = rng.below(3);
    let rounds = own.rounds(&c, ch, u).unwrap_or(MOST_ROUNDS);
    for allowance in [rounds, rounds.saturating_sub(1), rounds + 1, MOST_ROUNDS] {
        history.draw(own.aim.r, c, ch, u, allowance);
    }
    for _ in 0..6 {
        history.draw(own.aim.r, own.aim.any_coefficients(rng), ch, any_u(rng), any_allowance(rng));
    }
}

/// Writes a list from outside: an entry, a mark, all entries, or a length that is put right again.
fn touch(lengths: [usize; 6], rng: &mut Rng, history: &mut History) {
    let list = rng.between(2, 4);
    let mark = [1, 1, 1, 0, 2, 255][rng.below(6)];
    match rng.below(10) {
        0 => history.fill(list, rng.any().to_bits()),
        1 => history.fill(MARKS, mark as u32),
        2 => {
            let mut other = lengths;
            other[rng.below(6)] -= 1;
            history.lens(other);
            history.lens(lengths);
        }
        3..=5 => history.marks(rng.below(lengths[MARKS]), &[mark]),
        _ => history.floats(list, rng.below(lengths[list]), &[rng.any()]),
    }
}

/// A started table, some of whose lists are written between by another hand.
fn any_touched(rng: &mut Rng, put: Put) {
    let history = &mut History { class: "query, touched table", put };
    let r = any_record(rng);
    if r.n * r.m > 400 {
        return;
    }
    let aim = Aim::started(r);
    whole(r, history);
    for _ in 0..rng.between(2, 6) {
        touch(fitting_lengths(&r), rng, history);
        (0..4).for_each(|_| any_query(&aim, rng, history));
        history.build(r, rng.below(r.n as usize) as u32);
        any_query(&aim, rng, history);
    }
    history.dump();
}

/// A row of a weight so small that products with it can round to 0, built or not.
fn any_vanishing(rng: &mut Rng, put: Put) {
    let history = &mut History { class: "query, vanishing products", put };
    let r = record(rng.between(2, 5), rng.between(2, 3), any_medium(rng));
    let rows: Vec<u32> = (0..r.n).filter(|row| rng.chance(if *row == 0 { 90 } else { 40 })).collect();
    started(r, &rows, history);
    for _ in 0..6 {
        let c = alike((1.0, rng.pick(&TINY)));
        let x = [0.00125, 0.0025 * rng.unit()][rng.below(2)];
        all_three(r, c, rng.below(3), x, any_u(rng), history);
    }
}

fn any_great_sums(rng: &mut Rng, put: Put) {
    let history = &mut History { class: "query, great sums", put };
    let r = record(rng.between(2, 4), rng.between(2, 3), any_medium(rng));
    whole(r, history);
    for sums in great_sums() {
        let mut channels = [channel(rng.unit(), 1.0); 3];
        channels[rng.below(3)] = sums;
        all_three(r, coefficients(channels), rng.below(3), middle(2), any_u(rng), history);
    }
}

pub fn random(rng: &mut Rng, put: Put) {
    match rng.below(20) {
        10 if rng.chance(20) => any_great_sums(rng, put),
        10 => any_vanishing(rng, put),
        0..=9 => any_tallied(any_record(rng), rng.between(5, 40), rng, &mut History { class: "query, started", put }),
        11..=14 => any_lists(rng, put),
        15 | 16 => any_drawn(rng, put),
        17 => any_touched(rng, put),
        _ => any_causes(rng, put),
    }
}
