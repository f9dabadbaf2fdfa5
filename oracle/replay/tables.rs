//! Starting and building: the stored calls and the random histories.
use crate::calls::{lengths, Record, MOST_RADII, MOST_ROWS};
use crate::history::{History, Put};
use crate::lists::{nodes, spoilt, NODE_KINDS, SPOILT_KINDS};
use crate::numbers::{down, nans, up, Rng, SPECIAL};
use crate::protocol::{LENT_CAPACITIES, MARKS};
use crate::table::{albedos, radii};

pub fn stored(put: Put) {
    let rng = &mut Rng(20240901);
    every_size(put);
    whole_tables(rng, put);
    tables_in_part(rng, put);
    media(put);
    media_refused(put);
    nodes_by_name(put);
    nodes_of_kinds(rng, put);
    nodes_at_the_limits(put);
    nodes_refused(rng, put);
    other_contents(rng, put);
    starts_over_tables(rng, put);
    sizes_refused(rng, put);
    lengths_refused(rng, put);
    rows_refused(rng, put);
    several_causes(rng, put);
    beyond_the_capacity(put);
}

/// g and eta.
pub type Medium = (f32, f32);

pub const MEDIA: [Medium; 6] = [(0.0, 1.3), (0.5, 1.33), (-0.25, 1.5), (0.9, 1.1), (-0.6, 1.8), (0.25, 1.0)];

pub fn record(n: usize, m: usize, (g, eta): Medium) -> Record {
    Record { n: n as u32, m: m as u32, g, eta }
}

// ---- every size

/// Starting, and a row. That the build is accepted says that the nodes of starting pass check 6.
fn one_row(r: Record, row: u32, history: &mut History) {
    history.lens_of(&r);
    history.start_shown(r);
    history.build_shown(r, row);
}

fn every_size(put: Put) {
    let row = |n: usize| [n - 1, n / 2, 1][n % 3] as u32;
    for n in 2..=MOST_ROWS {
        let history = &mut History { class: "every N", put };
        one_row(record(n, 2 + n / 3 % 3, MEDIA[n % MEDIA.len()]), row(n), history);
        if [2, 3, 4, 5, 17, 100, 128].contains(&n) {
            history.list(0);
        }
    }
    for m in 2..=MOST_RADII {
        let history = &mut History { class: "every M", put };
        one_row(record(2 + m % 3, m, MEDIA[m % MEDIA.len()]), 1, history);
        if [2, 3, 4, 31, 64].contains(&m) {
            history.list(1);
        }
    }
}

// ---- tables

#[derive(Clone, Copy, PartialEq)]
enum Order {
    Ascending,
    Descending,
    Shuffled,
    /// With rows that are built twice, and refused builds between.
    Mixed,
}

pub fn shuffled(n: usize, rng: &mut Rng) -> Vec<u32> {
    let mut rows: Vec<u32> = (0..n as u32).collect();
    for k in (1..n).rev() {
        rows.swap(k, rng.below(k + 1));
    }
    rows
}

fn rows_in(order: Order, n: usize, rng: &mut Rng) -> Vec<u32> {
    match order {
        Order::Ascending => (0..n as u32).collect(),
        Order::Descending => (0..n as u32).rev().collect(),
        Order::Shuffled => shuffled(n, rng),
        Order::Mixed => {
            let mut rows = shuffled(n, rng);
            for _ in 0..n / 2 {
                rows.insert(rng.below(rows.len() + 1), rng.below(n) as u32);
            }
            rows
        }
    }
}

/// A build that is refused for one of several causes, and what it left.
pub fn refused_build(r: Record, rng: &mut Rng, history: &mut History) {
    let row = rng.below(r.n as usize) as u32;
    let (r, row) = match rng.below(7) {
        0 => (r, r.n),
        1 => (r, u32::MAX),
        2 => (Record { g: rng.pick(&outer_g()), ..r }, row),
        3 => (Record { eta: rng.pick(&outer_eta()), ..r }, row),
        4 => (Record { n: r.n + 1, ..r }, row),
        5 => (Record { m: r.m - 1, ..r }, row),
        _ => (Record { n: 0, ..r }, row),
    };
    history.build_shown(r, row);
}

/// A started table whose rows are all built, shown after every so many of them.
fn whole_table(r: Record, order: Order, shown: usize, rng: &mut Rng, history: &mut History) {
    history.lens_of(&r);
    history.start_shown(r);
    for (k, row) in rows_in(order, r.n as usize, rng).into_iter().enumerate() {
        if order == Order::Mixed && k % 4 == 1 {
            refused_build(r, rng, history);
        }
        history.build(r, row);
        if (k + 1) % shown == 0 {
            history.dump();
        }
    }
    history.dump();
    history.list(3);
    if r.n * r.m <= 800 {
        history.list(2);
        history.list(4);
    }
}

fn whole_tables(rng: &mut Rng, put: Put) {
    for (n, m) in [(2, 2), (3, 5), (7, 3)] {
        for (k, order) in [Order::Ascending, Order::Descending, Order::Shuffled, Order::Mixed].into_iter().enumerate() {
            for medium in [MEDIA[k], MEDIA[k + 2]] {
                whole_table(record(n, m, medium), order, 1, rng, &mut History { class: "small tables", put });
            }
        }
    }
    let sizes = [
        (2, 64, Order::Descending, 1),
        (128, 2, Order::Mixed, 7),
        (5, 64, Order::Mixed, 1),
        (20, 40, Order::Shuffled, 5),
        (33, 17, Order::Mixed, 6),
        (64, 64, Order::Ascending, 32),
        (100, 64, Order::Ascending, 20),
        (100, 64, Order::Mixed, 15),
        (128, 64, Order::Descending, 32),
    ];
    for (k, (n, m, order, shown)) in sizes.into_iter().enumerate() {
        whole_table(record(n, m, MEDIA[k % MEDIA.len()]), order, shown, rng, &mut History { class: "tables", put });
    }
}

fn tables_in_part(rng: &mut Rng, put: Put) {
    let history = &mut History { class: "tables in part", put };
    for _ in 0..16 {
        let r = record(rng.between(2, MOST_ROWS), rng.between(2, MOST_RADII), any_medium(rng));
        history.lens_of(&r);
        history.start(r);
        for _ in 0..rng.between(1, 4) {
            history.build_shown(r, rng.below(r.n as usize) as u32);
        }
        history.list(MARKS);
    }
}

// ---- g and eta

/// Within the range, at its ends and beside them.
fn inner_g() -> [f32; 13] {
    [up(-1.0), -0.999, -0.75, -0.5, -1e-20, -1e-45, -0.0, 0.0, f32::MIN_POSITIVE, 1e-3, 0.5, 0.999, down(1.0)]
}

pub fn inner_eta() -> [f32; 8] {
    [1.0, up(1.0), 1.0001, 1.1, 1.33, 1.5, down(2.0), 2.0]
}

/// Outside the range.
pub fn outer_g() -> Vec<f32> {
    let f = f32::INFINITY;
    let mut list = vec![-1.0, 1.0, down(-1.0), up(1.0), -2.0, 1.5, f, -f, f32::MAX, f32::MIN];
    list.extend(nans());
    list
}

pub fn outer_eta() -> Vec<f32> {
    let f = f32::INFINITY;
    let mut list = vec![down(1.0), up(2.0), 0.0, -0.0, 0.5, 3.0, -1.0, -1.5, 1e-45, f, -f, f32::MAX];
    list.extend(nans());
    list
}

pub fn any_medium(rng: &mut Rng) -> Medium {
    let g = if rng.chance(30) { rng.pick(&inner_g()) } else { rng.within(-0.99, 0.99) };
    let eta = if rng.chance(30) { rng.pick(&inner_eta()) } else { rng.within(1.0, 2.0) };
    (g, eta)
}

/// Every g with every eta: the rows of albedo 0 and 1, and one between.
fn media(put: Put) {
    let history = &mut History { class: "g and eta", put };
    history.lens_of(&record(3, 6, MEDIA[0]));
    for g in inner_g() {
        for eta in inner_eta() {
            let r = record(3, 6, (g, eta));
            history.start(r);
            (0..3).for_each(|row| history.build(r, row));
            history.dump();
        }
        history.list(2);
    }
}

fn media_refused(put: Put) {
    let history = &mut History { class: "g or eta refused", put };
    let medium = MEDIA[1];
    history.lens_of(&record(3, 6, medium));
    history.start(record(3, 6, medium));
    history.build_shown(record(3, 6, medium), 1);
    let by_g = outer_g().into_iter().map(|g| (g, medium.1));
    let by_eta = outer_eta().into_iter().map(|eta| (medium.0, eta));
    for refused in by_g.chain(by_eta).chain([(1.0, 3.0), (f32::NAN, f32::NAN)]) {
        history.start_shown(record(3, 6, refused));
        history.build_shown(record(3, 6, refused), 2);
    }
}

// ---- nodes other than those of starting

/// Albedos beyond 0 and 1, about them and far from them, tiny ones, and gaps as small and as huge as there are.
fn named_albedos() -> Vec<Vec<f32>> {
    let tiny = f32::from_bits(1);
    vec![
        vec![-0.5, 0.25, 1.5],
        vec![-0.0, 0.5, 1.0],
        vec![0.0, tiny, 1e-39, f32::MIN_POSITIVE, 1e-6, 1.0],
        vec![0.5, up(0.5), down(1.0), 1.0],
        vec![1.0, up(1.0), 2.0],
        vec![-3.0, -1.0, -tiny],
        vec![0.999, 1e10, 3e38],
        vec![-1.7e38, -1e-10, 0.0, 1.7e38],
    ]
}

/// Radii below 0, of either zero, tiny, far, and gaps as small and as huge as there are.
fn named_radii() -> Vec<Vec<f32>> {
    let tiny = f32::from_bits(1);
    vec![
        vec![-1.0, -0.5, -0.125],
        vec![-0.25, -0.0, 0.25, 0.5],
        vec![-0.0, 0.0025],
        vec![-tiny, 0.0, tiny, 1e-39, f32::MIN_POSITIVE],
        vec![0.5, up(0.5), 0.75, down(1.0), 1.0],
        vec![1.0, 10.0, 130.0, 140.0],
        vec![0.01, 1e19, 3e38],
        vec![-1.7e38, -1e-3, 1e-3, 1.7e38],
    ]
}

fn nodes_by_name(put: Put) {
    let history = &mut History { class: "other nodes", put };
    for (k, rho_samples) in named_albedos().iter().enumerate() {
        for (l, radius_samples) in named_radii().iter().enumerate() {
            let r = record(rho_samples.len(), radius_samples.len(), MEDIA[(k + l + 4) % MEDIA.len()]);
            history.lens_of(&r);
            history.nodes(rho_samples, radius_samples);
            (0..r.n).for_each(|row| history.build(r, row));
            history.dump();
            history.list(3);
            if (k + l) % 2 == 0 {
                history.list(2);
            }
        }
    }
}

/// Lists of every kind on both axes, and long ones.
fn nodes_of_kinds(rng: &mut Rng, put: Put) {
    let history = &mut History { class: "nodes of every kind", put };
    for (kind, other) in (0..NODE_KINDS).flat_map(|kind| (0..NODE_KINDS).map(move |other| (kind, other))) {
        let r = record(rng.between(2, 4), rng.between(2, 5), any_medium(rng));
        history.lens_of(&r);
        history.nodes(&nodes(kind, r.n as usize, rng), &nodes(other, r.m as usize, rng));
        history.build_shown(r, rng.below(r.n as usize) as u32);
    }
    for (n, m, kind, other) in [(128, 64, 2, 12), (128, 2, 11, 9), (2, 64, 2, 8), (100, 33, 10, 1)] {
        let r = record(n, m, any_medium(rng));
        history.lens_of(&r);
        history.nodes(&nodes(kind, n, rng), &nodes(other, m, rng));
        [0, n / 2, n - 1].into_iter().for_each(|row| history.build_shown(r, row as u32));
    }
}

/// Last minus first is the largest float, and then beyond it by as little as there is, on either axis.
fn nodes_at_the_limits(put: Put) {
    let history = &mut History { class: "nodes at the limits", put };
    let f = f32::from_bits;
    let (low, high, higher) = (f(0xfeffffff), f(0x7effffff), f(0x7f000000));
    let good = [0.0, 0.5, 1.0];
    let r = record(3, 3, MEDIA[2]);
    history.lens_of(&r);
    for ends in
        [[low, high], [low, higher], [down(low), high], [f32::MIN, f32::MAX], [f32::MIN, 0.0], [-0.0, f32::MAX], [low, 1e-45]]
    {
        for between in [low / 2.0, -1.0] {
            let nodes = [ends[0], between.max(up(ends[0])).min(down(ends[1])), ends[1]];
            for (rho_samples, radius_samples) in [(nodes, good), (good, nodes), (nodes, nodes)] {
                history.nodes(&rho_samples, &radius_samples);
                history.build_shown(r, 1);
            }
        }
    }
}

/// One node spoiled, in the first, a middle and the last place, for a row that there is and for one that there is not; beside each,
/// the nearest list that is in order.
fn nodes_refused(rng: &mut Rng, put: Put) {
    let history = &mut History { class: "nodes refused", put };
    let r = record(5, 6, MEDIA[4]);
    let good = [albedos(5), radii(6)];
    history.lens_of(&r);
    history.start_shown(r);
    for (list, nodes) in good.iter().enumerate() {
        for place in [0, nodes.len() / 2, nodes.len() - 1] {
            let (to, other) = if place + 1 < nodes.len() { (1, nodes[place + 1]) } else { (-1, nodes[place - 1]) };
            let past = [down(other), other, up(other)];
            let mut spoiled = vec![f32::INFINITY, f32::NEG_INFINITY, past[(1 + to) as usize], other, past[(1 - to) as usize]];
            spoiled.extend(nans());
            for x in spoiled {
                history.floats(list, place, &[x]);
                history.build_shown(r, rng.below(5) as u32);
                history.build_shown(r, [5, 6, u32::MAX][rng.below(3)]);
            }
            history.floats(list, place, &[nodes[place]]);
        }
    }
    for kind in 0..SPOILT_KINDS {
        for lists in [[true, false], [false, true], [true, true]] {
            let r = record(rng.between(2, 4), rng.between(2, 4), any_medium(rng));
            let mut list = |spoil: bool, n: u32| if spoil { spoilt(kind, n as usize, rng) } else { nodes(2, n as usize, rng) };
            let (rho_samples, radius_samples) = (list(lists[0], r.n), list(lists[1], r.m));
            history.lens_of(&r);
            history.nodes(&rho_samples, &radius_samples);
            history.build_shown(r, rng.below(r.n as usize) as u32);
        }
    }
}

// ---- what the lists held before

/// Lists that hold anything at all: a start leaves nothing of it, and a build leaves all of it but its row.
fn other_contents(rng: &mut Rng, put: Put) {
    let history = &mut History { class: "other contents", put };
    let words = [0x7fc00000, 0xffc00000, 0x7f800001, 0xffffffff, 0x7f800000, 0xff800000, 0x80000000, 0x3f800000, 0x00000001];
    for (k, word) in words.into_iter().enumerate() {
        for mark in [0, 1, 2, 255] {
            let r = record(4, 5, MEDIA[k % MEDIA.len()]);
            history.lens_of(&r);
            [2, 3, 4].into_iter().for_each(|list| history.fill(list, word));
            history.fill(MARKS, mark);
            history.nodes(&albedos(4), &radii(5));
            history.build_shown(r, rng.below(4) as u32);
            history.list(MARKS);
            [0, 1].into_iter().for_each(|list| history.fill(list, word));
            history.start_shown(r);
        }
    }
    for _ in 0..6 {
        let r = record(rng.between(2, 6), rng.between(2, 6), any_medium(rng));
        history.lens_of(&r);
        any_contents(&r, rng, history);
        history.nodes(&albedos(r.n as usize), &radii(r.m as usize));
        history.build_shown(r, rng.below(r.n as usize) as u32);
        (2..6).for_each(|list| history.list(list));
        whole_capacity(history);
    }
}

/// Any patterns in the places of a table, and any marks.
pub fn any_contents(r: &Record, rng: &mut Rng, history: &mut History) {
    let lengths = lengths(r).map(|length| length as usize);
    for list in [2, 3, 4] {
        let floats: Vec<f32> = (0..lengths[list]).map(|_| rng.any()).collect();
        history.floats(list, 0, &floats);
    }
    let marks: Vec<u8> = (0..lengths[MARKS]).map(|_| [0, 1, 2, 255, rng.below(256) as u8][rng.below(5)]).collect();
    history.marks(0, &marks);
}

/// Everything, the places beyond the lengths too.
fn whole_capacity(history: &mut History) {
    history.lens(LENT_CAPACITIES);
    history.dump();
}

fn starts_over_tables(rng: &mut Rng, put: Put) {
    let history = &mut History { class: "starts over tables", put };
    for (k, (n, m)) in [(4, 5), (5, 4), (2, 2), (10, 10)].into_iter().enumerate() {
        let r = record(n, m, MEDIA[k]);
        history.lens_of(&r);
        history.start_shown(r);
        shuffled(n, rng).into_iter().for_each(|row| history.build(r, row));
        history.dump();
        // the same table again; one with other g and eta; one of another size, in the same places
        history.start_shown(r);
        history.build_shown(r, 1);
        history.start_shown(record(n, m, MEDIA[k + 1]));
        history.build_shown(record(n, m, MEDIA[k + 1]), 0);
        history.lens_of(&record(m, n, MEDIA[k]));
        history.start_shown(record(m, n, MEDIA[k]));
        history.build_shown(record(m, n, MEDIA[k]), (m - 1) as u32);
        whole_capacity(history);
    }
}

// ---- refusals

/// Nodes that are in order up to every length, and other lists that hold something everywhere.
fn furnish(rng: &mut Rng, history: &mut History) {
    furnish_nodes(history);
    [2, 3, 4].into_iter().for_each(|list| history.fill(list, rng.bits()));
    history.fill(MARKS, 2);
}

fn ordered_nodes() -> [Vec<f32>; 2] {
    [(0..LENT_CAPACITIES[0]).map(|i| i as f32 / 128.0).collect(), radii(LENT_CAPACITIES[1])]
}

fn furnish_nodes(history: &mut History) {
    let [rho_samples, radius_samples] = ordered_nodes();
    history.nodes(&rho_samples, &radius_samples);
}

/// The lengths of a record, cut at the capacities.
pub fn fitting_lengths(r: &Record) -> [usize; 6] {
    let lengths = lengths(r);
    std::array::from_fn(|list| lengths[list].min(LENT_CAPACITIES[list] as u64) as usize)
}

/// A build and a start that are refused, and what each left.
fn both_refused(r: Record, row: u32, history: &mut History) {
    history.build_shown(r, row);
    history.start_shown(r);
}

/// N and M of all that is out of range, and at the ends of the range, with lists that are as long as they say.
fn sizes_refused(rng: &mut Rng, put: Put) {
    let history = &mut History { class: "N or M refused", put };
    furnish(rng, history);
    let (ns, ms) = ([0, 1, 129, 130, 1 << 16, u32::MAX], [0, 1, 65, 66, 1 << 31, u32::MAX]);
    let by_n = ns.into_iter().flat_map(|n| [(n, 2), (n, 64)]);
    let by_m = ms.into_iter().flat_map(|m| [(2, m), (128, m)]);
    let by_both = ns.into_iter().zip(ms);
    for (n, m) in by_n.chain(by_m).chain(by_both) {
        let r = Record { n, m, g: 0.5, eta: 1.5 };
        history.lens(fitting_lengths(&r));
        both_refused(r, 0, history);
    }
    for (n, m) in [(2, 2), (128, 2), (2, 64), (128, 64)] {
        furnish_nodes(history);
        history.lens_of(&record(n, m, MEDIA[0]));
        history.build_shown(record(n, m, MEDIA[0]), 1);
        history.start_shown(record(n, m, MEDIA[0]));
    }
}

/// Each list too short and too long by one, empty and at its capacity; two of them; N and M exchanged; the same with a node that is
/// a NaN; and the record off by one.
fn lengths_refused(rng: &mut Rng, put: Put) {
    let history = &mut History { class: "lengths refused", put };
    furnish(rng, history);
    for (n, m) in [(4, 3), (2, 2), (128, 64)] {
        let r = record(n, m, MEDIA[1]);
        let right = fitting_lengths(&r);
        let mut wrong = Vec::new();
        for list in 0..6 {
            for length in [right[list] - 1, right[list] + 1, 0, LENT_CAPACITIES[list]] {
                let mut lengths = right;
                lengths[list] = length;
                wrong.push(lengths);
            }
        }
        for (list, other) in [(0, 1), (2, 4), (0, 5), (3, 5), (1, 2)] {
            let mut lengths = right;
            lengths[list] -= 1;
            lengths[other] += 1;
            wrong.push(lengths);
        }
        if n != m {
            wrong.push(fitting_lengths(&Record { n: r.m, m: r.n, ..r }));
        }
        for lengths in &wrong {
            history.lens(*lengths);
            both_refused(r, 1, history);
        }
        if n == 4 {
            history.floats(0, 1, &[f32::NAN]);
            for lengths in &wrong {
                history.lens(*lengths);
                history.build_shown(r, 1);
            }
            history.floats(0, 1, &ordered_nodes()[0][1..2]);
        }
    }
    let r = record(6, 4, MEDIA[3]);
    history.lens_of(&r);
    for (n, m) in [(5, 4), (7, 4), (6, 3), (6, 5), (4, 6), (8, 3), (3, 8), (12, 2), (2, 12)] {
        both_refused(record(n, m, MEDIA[3]), 0, history);
    }
}

fn rows_refused(rng: &mut Rng, put: Put) {
    let history = &mut History { class: "rows", put };
    for (n, m) in [(2, 2), (3, 4), (50, 3), (128, 2)] {
        let r = record(n, m, any_medium(rng));
        history.lens_of(&r);
        history.start_shown(r);
        let n = n as u32;
        for row in [n - 1, n, n + 1, 2 * n, 127, 128, 255, 256, 65536, u32::MAX, 0] {
            history.build_shown(r, row);
        }
    }
}

/// Arguments that are refused for some of the causes 1 to 7, and a node that is to be spoiled: its list, place and value.
struct Trial {
    r: Record,
    row: u32,
    lengths: [usize; 6],
    spoiled: Option<(usize, usize, f32)>,
}

/// Bit k of the causes is number k + 1.
fn trial(causes: usize, rng: &mut Rng) -> Trial {
    let has = |number: usize| causes >> (number - 1) & 1 == 1;
    let n = if has(1) { [0, 1, 129, u32::MAX][rng.below(4)] } else { rng.between(2, 6) as u32 };
    let m = if has(2) { [0, 1, 65, u32::MAX][rng.below(4)] } else { rng.between(2, 6) as u32 };
    let (mut g, mut eta) = any_medium(rng);
    if has(3) {
        g = rng.pick(&outer_g());
    }
    if has(4) {
        eta = rng.pick(&outer_eta());
    }
    let r = Record { n, m, g, eta };
    let mut lengths = fitting_lengths(&r);
    if has(5) {
        let list = rng.below(6);
        let longer = lengths[list] == 0 || lengths[list] < LENT_CAPACITIES[list] && rng.chance(50);
        lengths[list] = if longer { lengths[list] + 1 } else { lengths[list] - 1 };
    }
    let spoiled = has(6).then(|| {
        let list = rng.below(2);
        let place = rng.below(lengths[list].max(1));
        let x = if place == 0 { rng.pick(&[f32::NAN, f32::INFINITY, 1e9]) } else { rng.pick(&[f32::NAN, f32::NEG_INFINITY, -1.0]) };
        (list, place, x)
    });
    let row = if has(7) { [n, n.saturating_add(1), u32::MAX][rng.below(3)] } else { rng.below((n as usize).clamp(1, 128)) as u32 };
    Trial { r, row, lengths, spoiled }
}

/// A build and a start by a trial, on nodes that are in order but for the spoiled one. A start makes checks 1 to 5 only.
fn try_both(causes: usize, rng: &mut Rng, history: &mut History) {
    let trial = trial(causes, rng);
    history.lens(trial.lengths);
    if let Some((list, place, x)) = trial.spoiled {
        history.floats(list, place, &[x]);
    }
    both_refused(trial.r, trial.row, history);
    if let Some((list, place, _)) = trial.spoiled {
        history.floats(list, place, &ordered_nodes()[list][place..=place]);
    }
    if causes % 32 == 0 {
        let [rho_samples, radius_samples] = ordered_nodes();
        history.nodes(&rho_samples[..8], &radius_samples[..8]);
    }
}

/// Every set of causes, three times, and sets of few causes more often.
fn several_causes(rng: &mut Rng, put: Put) {
    let history = &mut History { class: "several causes", put };
    furnish(rng, history);
    for causes in 0..128usize {
        let times = if causes.count_ones() == 2 { 6 } else { 3 };
        (0..times).for_each(|_| try_both(causes, rng, history));
    }
    whole_capacity(history);
}

/// The test program's own limits.
fn beyond_the_capacity(put: Put) {
    let history = &mut History { class: "beyond the capacity", put };
    for (list, capacity) in LENT_CAPACITIES.into_iter().enumerate() {
        let mut lengths = LENT_CAPACITIES;
        lengths[list] += 1;
        history.lens(lengths);
        history.dump();
        history.words(list, capacity - 1, &[7, 8]);
        history.words(list, capacity, &[7]);
        history.dump();
        history.words(list, capacity - 2, &[7, 8]);
        history.dump();
    }
    history.words(MARKS, 0, &[1, 256]);
    history.fill(MARKS, u32::MAX);
    history.dump();
}

// ---- random histories

/// Mostly a small table.
fn any_size(rng: &mut Rng) -> (usize, usize) {
    match rng.below(100) {
        0 if rng.chance(50) => (rng.between(2, MOST_ROWS), rng.between(2, MOST_RADII)),
        0 => [(MOST_ROWS, 2), (2, MOST_RADII), (MOST_ROWS, 3), (3, MOST_RADII)][rng.below(4)],
        1..=4 => (rng.between(2, MOST_ROWS), rng.between(2, 6)),
        5..=8 => (rng.between(2, 6), rng.between(2, MOST_RADII)),
        _ => (rng.between(2, 7), rng.between(2, 9)),
    }
}

pub fn any_record(rng: &mut Rng) -> Record {
    let (n, m) = any_size(rng);
    record(n, m, any_medium(rng))
}

/// One step of a history on a table whose lists are as long as the record says.
fn any_step(r: Record, rng: &mut Rng, history: &mut History) {
    match rng.below(20) {
        0..=11 => history.build_shown(r, rng.below(r.n as usize) as u32),
        12 | 13 => refused_build(r, rng, history),
        14 => history.start_shown(r),
        15 => history.start_shown(Record { g: rng.any(), eta: rng.any(), ..r }),
        16 => history.build_shown(Record { g: rng.any(), eta: rng.within(0.9, 2.1), ..r }, rng.below(r.n as usize + 2) as u32),
        17 => {
            let lengths = lengths(&r).map(|length| length as usize);
            let list = rng.below(5);
            history.floats(list, rng.below(lengths[list]), &[rng.any()]);
            history.marks(rng.below(lengths[MARKS]), &[rng.below(256) as u8]);
            history.dump();
        }
        18 => {
            let mut lengths = fitting_lengths(&r);
            let list = rng.below(6);
            lengths[list] = if rng.chance(50) { lengths[list] + 1 } else { lengths[list] - 1 };
            history.lens(lengths);
            both_refused(r, 0, history);
            history.lens_of(&r);
        }
        _ => history.list(rng.below(6)),
    }
}

fn any_steps(r: Record, rng: &mut Rng, history: &mut History) {
    (0..rng.between(2, 8)).for_each(|_| any_step(r, rng, history));
    if rng.chance(5) {
        whole_capacity(history);
    }
}

fn any_started(rng: &mut Rng, put: Put) {
    let history = &mut History { class: "started", put };
    let r = any_record(rng);
    history.lens_of(&r);
    if r.n * r.m < 40 && rng.chance(30) {
        any_contents(&r, rng, history);
    }
    history.start_shown(r);
    any_steps(r, rng, history);
}

fn any_nodes(rng: &mut Rng, put: Put) {
    let history = &mut History { class: "other nodes", put };
    let r = any_record(rng);
    let (n, m) = (r.n as usize, r.m as usize);
    let rho_samples = if rng.chance(40) { albedos(n) } else { nodes(rng.below(NODE_KINDS), n, rng) };
    let radius_samples = if rng.chance(40) { radii(m) } else { nodes(rng.below(NODE_KINDS), m, rng) };
    history.lens_of(&r);
    history.nodes(&rho_samples, &radius_samples);
    any_steps(r, rng, history);
}

/// Nodes in even steps about the range of starting's, so that most rows are of numbers.
fn any_moderate_nodes(rng: &mut Rng, put: Put) {
    let history = &mut History { class: "moderate nodes", put };
    let r = any_record(rng);
    let list = |first: f32, step: f32, n: u32| -> Vec<f32> { (0..n).map(|i| first + step * i as f32).collect() };
    let rho_samples = list(rng.within(-0.5, 0.5), rng.within(0.001, 1.0) / r.n as f32, r.n);
    let radius_samples = list(rng.within(-0.5, 0.5), rng.within(0.01, 4.0) / r.m as f32, r.m);
    history.lens_of(&r);
    history.nodes(&rho_samples, &radius_samples);
    any_steps(r, rng, history);
}

fn any_spoilt(rng: &mut Rng, put: Put) {
    let history = &mut History { class: "spoilt nodes", put };
    let r = any_record(rng);
    history.lens_of(&r);
    history.start_shown(r);
    let list = rng.below(2);
    let nodes = if list == 0 { albedos(r.n as usize) } else { radii(r.m as usize) };
    let place = rng.below(nodes.len());
    let near = rng.pick(&nodes);
    let x = [rng.pick(&SPECIAL), down(near), near, up(near)][rng.below(4)];
    history.floats(list, place, &[x]);
    if rng.chance(10) {
        // last minus first is infinite
        history.floats(list, 0, &[-3e38]);
        history.floats(list, nodes.len() - 1, &[3e38]);
    }
    any_steps(r, rng, history);
}

fn any_causes(rng: &mut Rng, put: Put) {
    let history = &mut History { class: "causes", put };
    furnish(rng, history);
    for _ in 0..8 {
        try_both(rng.below(128) & rng.below(128), rng, history);
    }
}

pub fn random(rng: &mut Rng, put: Put) {
    match rng.below(10) {
        0..=3 => any_started(rng, put),
        4 | 5 => any_moderate_nodes(rng, put),
        6 => any_nodes(rng, put),
        7 | 8 => any_spoilt(rng, put),
        _ => any_causes(rng, put),
    }
}
