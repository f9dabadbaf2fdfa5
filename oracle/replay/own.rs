//! Weights, integration and 2D sampling on a caller's own lists: the stored calls and the random histories.
use crate::calls::{MOST_RADII, MOST_ROWS};
use crate::history::{self, History};
use crate::lists::{nodes, spoilt, values, NODE_KINDS, SPOILT_KINDS, VALUE_KINDS};
use crate::numbers::{about, down, nans, up, Rng, SPECIAL};
use crate::own_calls::{integrate, sample_2d};
use crate::protocol::{Call, OWN};
use crate::rounds::MOST_ROUNDS;

enum Case {
    Weights {
        nodes: Vec<f32>,
        x: f32,
    },
    /// With the length of the CDF list, which holds whatever was there.
    Integrate {
        nodes: Vec<f32>,
        values: Vec<f32>,
        cdf: usize,
    },
    Sample(Draw),
}

/// Where cases go, each with the name of its class.
type Put<'a> = &'a mut dyn FnMut(&'static str, Case);

/// What the lists are known to hold.
#[derive(Default)]
struct Held {
    lengths: [usize; 4],
    words: [Vec<u32>; 4],
}

impl Held {
    /// Brings a list up to what it is to hold, by as few words as one stretch takes, a long list from zeros on.
    fn list(&mut self, list: usize, floats: &[f32], history: &mut History) {
        let known = &mut self.words[list];
        if floats.len() > 1000 {
            history.fill(OWN + list, 0);
            *known = vec![0; floats.len()];
        }
        let words: Vec<u32> = floats.iter().map(|x| x.to_bits()).collect();
        let other = |at: &usize| known.get(*at) != Some(&words[*at]);
        if let (Some(first), Some(last)) = ((0..words.len()).find(other), (0..words.len()).rfind(other)) {
            history.words(OWN + list, first, &words[first..=last]);
        }
        known.splice(..words.len().min(known.len()), words);
    }

    fn lengths(&mut self, lengths: [usize; 4], history: &mut History) {
        if self.lengths != lengths {
            self.lengths = lengths;
            history.call(Call::OwnLens(lengths));
        }
    }

    /// The lists of a case, and its call.
    fn play(&mut self, case: &Case, history: &mut History) {
        let [_, l7, l8, l9] = self.lengths;
        match case {
            Case::Weights { nodes, x } => {
                self.list(0, nodes, history);
                self.lengths([nodes.len(), l7, l8, l9], history);
                history.call(Call::Weights(*x));
            }
            Case::Integrate { nodes, values, cdf } => {
                [(0, nodes), (2, values)].into_iter().for_each(|(list, floats)| self.list(list, floats, history));
                self.lengths([nodes.len(), l7, values.len(), *cdf], history);
                history.call(Call::Integrate);
                history.own_dump();
                self.words[3].clear();
            }
            Case::Sample(Draw { nodes1, nodes2, values, cdf, alpha, u, allowance }) => {
                let lists = [nodes1, nodes2, values, cdf];
                (0..4).for_each(|list| self.list(list, lists[list], history));
                self.lengths(lists.map(|list| list.len()), history);
                history.call(Call::Sample2d(*alpha, *u, *allowance));
            }
        }
    }
}

/// The arguments of a draw.
#[derive(Clone)]
struct Draw {
    nodes1: Vec<f32>,
    nodes2: Vec<f32>,
    values: Vec<f32>,
    cdf: Vec<f32>,
    alpha: f32,
    u: f32,
    allowance: u32,
}

impl Draw {
    fn case(&self) -> Case {
        Case::Sample(self.clone())
    }

    /// Another alpha and another u on the same lists.
    fn ask_elsewhere(&mut self, rng: &mut Rng) {
        if self.nodes1.len() > 1 {
            self.alpha = if rng.chance(50) { rng.pick(&self.nodes1) } else { within(&self.nodes1, rng) };
        }
        self.u = if rng.chance(20) { rng.scale(-12, -1).min(1.0) } else { any_u(rng) };
    }

    /// Some rows of both tables with one number throughout.
    fn fill_rows(&mut self, number: f32, some: &dyn Fn(usize) -> bool) {
        let radii = self.nodes2.len();
        for row in (0..self.nodes1.len()).filter(|row| some(*row)) {
            self.values[row * radii..(row + 1) * radii].fill(number);
            self.cdf[row * radii..(row + 1) * radii].fill(number);
        }
    }

    /// How many rounds it makes, the most there are if it does not end within the allowance; none if it makes none.
    fn rounds(&self) -> Option<u32> {
        match sample_2d([&self.nodes1, &self.nodes2, &self.values], &self.cdf, self.alpha, self.u, self.allowance) {
            Err(13) => Some(u32::MAX),
            drawn => drawn.ok()?.map(|sample| sample.rounds),
        }
    }
}

pub fn stored(put: history::Put) {
    let rng = &mut Rng(20240101);
    let held = &mut Held::default();
    let put: Put = &mut |class, case| held.play(&case, &mut History { class, put });
    proved_table(put);
    weights_on_short_lists(rng, put);
    weights_on_long_lists(rng, put);
    weights_at_the_limits(put);
    weights_refused(rng, put);
    integrals(rng, put);
    integrals_refused(rng, put);
    draws_from_tables(rng, put);
    draws_by_rounds(rng, put);
    draws_at_the_tolerances(put);
    draws_without_needed_rows(rng, put);
    draws_at_the_ends(rng, put);
    draws_from_large_tables(rng, put);
    draws_refused(rng, put);
    draws_refused_for_several_causes(rng, put);
}

// ---- the proved values (specification, section 13.2)

fn proved_table(put: Put) {
    let class = "proved table";
    for x in [0.0, 1.0, 2.0, 0.5, 1.5, 2.5] {
        put(class, Case::Weights { nodes: vec![0.0, 1.0, 2.0], x });
    }
    put(class, Case::Weights { nodes: vec![0.0, 1.0], x: 0.5 });
    put(class, Case::Integrate { nodes: vec![0.0, 1.0, 2.0], values: vec![0.0, 2.0, 4.0], cdf: 3 });
    for (value, allowance) in [(1.0, 1), (1.0, 1000), (0.0, 20), (0.0, 21), (0.0, 1000)] {
        put(class, flat(value, allowance).case());
    }
}

/// The draw of the proved values with the given first row of values.
fn flat(value: f32, allowance: u32) -> Draw {
    Draw {
        nodes1: vec![0.0, 1.0],
        nodes2: vec![0.0, 1.0, 2.0],
        values: vec![value, value, value, 0.0, 0.0, 0.0],
        cdf: vec![0.0, 1.0, 2.0, 0.0, 0.0, 0.0],
        alpha: 0.0,
        u: 0.75,
        allowance,
    }
}

// ---- weights

/// Points within a list: beside each node, in the middle and anywhere between two.
fn points(list: &[f32], rng: &mut Rng) -> Vec<f32> {
    let mut points = Vec::new();
    for pair in list.windows(2) {
        points.extend([pair[0], up(pair[0]), down(pair[1])]);
        points.push(pair[0] / 2.0 + pair[1] / 2.0);
        points.push(pair[0] + (pair[1] - pair[0]) * rng.unit());
    }
    points.push(list[list.len() - 1]);
    points
}

/// Points outside, or where zeros and NaNs tell.
fn points_beyond(list: &[f32]) -> Vec<f32> {
    let mut points = vec![down(list[0]), up(list[list.len() - 1]), 0.0, -0.0, f32::INFINITY, f32::NEG_INFINITY];
    points.extend(nans());
    points
}

fn weights_on_short_lists(rng: &mut Rng, put: Put) {
    for n in [2, 3, 4, 6] {
        for kind in 0..NODE_KINDS {
            let list = nodes(kind, n, rng);
            for x in points(&list, rng) {
                put("weights, short lists", Case::Weights { nodes: list.clone(), x });
            }
            for x in points_beyond(&list) {
                if n < 5 {
                    put("weights, beyond the ends", Case::Weights { nodes: list.clone(), x });
                }
            }
        }
    }
}

fn weights_on_long_lists(rng: &mut Rng, put: Put) {
    let class = "weights, long lists";
    // every node
    for (n, kind) in [(17, 0), (31, 4), (32, 9), (33, 1), (48, 11)] {
        let list = nodes(kind, n, rng);
        for x in list.clone() {
            put(class, Case::Weights { nodes: list.clone(), x });
        }
    }
    // the ends, and a few nodes and points between
    for n in [8, 16, 63, 64, 65, 100, 127, 128] {
        for kind in [rng.below(3), 3 + rng.below(NODE_KINDS - 3)] {
            let list = nodes(kind, n, rng);
            let all = points(&list, rng);
            let few: Vec<f32> = (0..4).map(|_| rng.pick(&all)).collect();
            for x in [&list[..2], &list[n - 2..], &few[..]].concat() {
                put(class, Case::Weights { nodes: list.clone(), x });
            }
            put("weights, beyond the ends", Case::Weights { nodes: list.clone(), x: up(list[n - 1]) });
            put("weights, beyond the ends", Case::Weights { nodes: list.clone(), x: down(list[0]) });
        }
    }
}

/// Lists at the limits of the format.
fn weights_at_the_limits(put: Put) {
    let f = f32::from_bits;
    let tiny = f(1);
    let lists: Vec<Vec<f32>> = vec![
        vec![f(0xfeffffff), f(0x7effffff)],
        vec![f(0xfefffffe), 0.0, f(0x7f000000)],
        vec![f(0xff7fffff), -tiny, -0.0],
        vec![0.0, tiny, f32::MAX],
        vec![-0.0, 1.0],
        vec![-1.0, -0.0],
        vec![-1.0, 0.0, 1.0],
        vec![-tiny, 0.0, tiny],
        vec![-tiny, tiny],
        vec![0.0, 2.0 * tiny, 3.0 * tiny, 1.0, f32::MAX],
        vec![1.0, up(1.0), 2.0, up(2.0), 1e30],
        vec![f32::MIN, down(-3e38), -3e38, -2e38, -1e38, 0.0],
        vec![f32::MAX / 2.0, down(f32::MAX), f32::MAX],
        vec![down(f32::MIN_POSITIVE), f32::MIN_POSITIVE, up(f32::MIN_POSITIVE)],
    ];
    for list in lists {
        let rng = &mut Rng(list.len() as u64);
        for x in [points(&list, rng), points_beyond(&list)[..4].to_vec()].concat() {
            put("weights, limits", Case::Weights { nodes: list.clone(), x });
        }
    }
}

fn weights_refused(rng: &mut Rng, put: Put) {
    let class = "weights, refused";
    for n in [0, 1, 129, 130] {
        for x in [0.0, f32::NAN] {
            put(class, Case::Weights { nodes: (0..n).map(|i| i as f32).collect(), x });
        }
    }
    for kind in 0..SPOILT_KINDS {
        for n in [2, 3, 6] {
            let list = spoilt(kind, n, rng);
            for x in [0.5, f32::NAN, list[0]] {
                put(class, Case::Weights { nodes: list.clone(), x });
            }
        }
        put(class, Case::Weights { nodes: spoilt(kind, [128, 129][kind % 2], rng), x: 0.5 });
    }
    for n in [0, 1] {
        put(class, Case::Weights { nodes: vec![f32::NAN; n], x: 0.0 });
    }
}

// ---- integration

fn integrals(rng: &mut Rng, put: Put) {
    for value_kind in 0..VALUE_KINDS {
        for node_kind in 0..NODE_KINDS {
            for n in [2 + (value_kind + node_kind) % 3, rng.between(4, 9)] {
                let (nodes, values) = (nodes(node_kind, n, rng), values(value_kind, n, rng));
                put("integral, short lists", Case::Integrate { nodes, values, cdf: n });
            }
        }
    }
    for n in [16, 33, 64, 127, 128] {
        for value_kind in [2, rng.below(VALUE_KINDS)] {
            let (nodes, values) = (nodes(rng.below(3), n, rng), values(value_kind, n, rng));
            put("integral, long lists", Case::Integrate { nodes, values, cdf: n });
        }
    }
}

fn integrals_refused(rng: &mut Rng, put: Put) {
    let class = "integral, refused";
    // the number of nodes, with lists as long and not
    for n in [0usize, 1, 129, 130] {
        for longer in 0..2 {
            let nodes = if n % 2 == 0 { nodes(0, n.max(2), rng)[..n].to_vec() } else { vec![f32::NAN; n] };
            put(class, Case::Integrate { nodes, values: values(2, n, rng), cdf: n + longer });
        }
    }
    // the other lengths, with nodes in order and not
    for n in [2usize, 3, 6, 128] {
        for (nv, nc) in [(n - 1, n), (n + 1, n), (n, n - 1), (n, n + 1), (n - 1, n - 1), (n + 1, n + 1), (0, n), (n, 0), (0, 0)] {
            for nodes in [nodes(0, n, rng), spoilt(nv + nc, n, rng)] {
                if n < 128 || nodes[0] == 0.0 && nv + nc < 257 {
                    put(class, Case::Integrate { nodes, values: values(2, nv, rng), cdf: nc });
                }
            }
        }
    }
    for kind in 0..SPOILT_KINDS {
        for n in [2, 3, 7] {
            put(class, Case::Integrate { nodes: spoilt(kind, n, rng), values: values(10, n, rng), cdf: n });
        }
    }
}

// ---- drawing

/// The CDF of each row, as building makes it.
fn integrated(nodes2: &[f32], values: &[f32]) -> Vec<f32> {
    let mut cdf = vec![0.0; values.len()];
    for (row, out) in values.chunks(nodes2.len()).zip(cdf.chunks_mut(nodes2.len())) {
        assert!(integrate(nodes2, row, out).is_ok(), "a row was refused");
    }
    cdf
}

/// A point of the range, on a node, beside one or between.
fn within(list: &[f32], rng: &mut Rng) -> f32 {
    let all = points(list, rng);
    rng.pick(&all)
}

fn any_u(rng: &mut Rng) -> f32 {
    if rng.chance(70) {
        rng.unit()
    } else {
        rng.pick(&[0.0, -0.0, 1.0, down(1.0), 0.5, 1e-45, 1e-40, f32::MIN_POSITIVE, 1e-7])
    }
}

/// A table as building makes it: rows that rise and fall, on nodes as a table has them.
fn built(rows: usize, radii: usize, rng: &mut Rng) -> Draw {
    let (nodes1, nodes2) = (nodes(2, rows, rng), nodes(1, radii, rng));
    let mut values = Vec::new();
    for row in 0..rows {
        let (height, fall) = (0.05 + row as f32 * rng.unit(), 0.5 + 0.4 * rng.unit());
        let mut rest = height;
        for x in &nodes2 {
            values.push(*x * rest + 0.001 * rng.unit());
            rest *= fall;
        }
    }
    let cdf = integrated(&nodes2, &values);
    let alpha = within(&nodes1, rng);
    Draw { nodes1, nodes2, values, cdf, alpha, u: any_u(rng), allowance: MOST_ROUNDS }
}

const TABLE_KINDS: usize = 10;
const TABLE_NAMES: [&str; TABLE_KINDS] = [
    "draw, built table",
    "draw, scaled table",
    "draw, any nodes",
    "draw, unsorted cdf",
    "draw, zeros",
    "draw, special numbers",
    "draw, any bits",
    "draw, steep",
    "draw, rows of two signs",
    "draw, flat start",
];

fn table(kind: usize, rows: usize, radii: usize, rng: &mut Rng) -> Draw {
    let mut draw = built(rows, radii, rng);
    let cells = rows * radii;
    match kind % TABLE_KINDS {
        0 => {}
        1 => {
            let scale = rng.scale(-30, 30);
            draw.values.iter_mut().for_each(|x| *x *= scale);
            draw.cdf = integrated(&draw.nodes2, &draw.values);
        }
        2 => {
            draw.nodes1 = nodes(rng.below(NODE_KINDS), rows, rng);
            draw.nodes2 = nodes(rng.below(NODE_KINDS), radii, rng);
            draw.alpha = within(&draw.nodes1, rng);
            draw.values = values(rng.between(1, 4), cells, rng);
            draw.cdf = integrated(&draw.nodes2, &draw.values);
        }
        3 => {
            draw.values = values(rng.between(2, 4), cells, rng);
            draw.cdf = values(3, cells, rng);
        }
        4 => {
            let (kind1, kind2) = [(9, 9), (9, 2), (2, 9), (3, 9)][rng.below(4)];
            draw.values = values(kind1, cells, rng);
            draw.cdf = if kind2 == 9 { values(9, cells, rng) } else { integrated(&draw.nodes2, &values(2, cells, rng)) };
        }
        5 => {
            let kinds = [5, 6, 7, 8, 9, 10];
            draw.values = values(kinds[rng.below(6)], cells, rng);
            draw.cdf = values(kinds[rng.below(6)], cells, rng);
        }
        6 => {
            draw.values = values(10, cells, rng);
            draw.cdf = (0..cells).map(|_| f32::from_bits(rng.bits())).collect();
        }
        // Newton's steps are short where the slope is great, and the draw can stay where it is
        7 => {
            let scale = rng.scale(0, 9);
            draw.nodes2 = nodes(12, radii, rng);
            draw.values = (0..cells).map(|_| scale * rng.unit() * rng.unit() * rng.unit()).collect();
            draw.cdf = integrated(&draw.nodes2, &draw.values);
        }
        8 => {
            draw.nodes2 = nodes(0, radii, rng);
            draw.values = (0..cells).map(|_| rng.unit() * 4.0 - 1.0).collect();
            draw.cdf = integrated(&draw.nodes2, &draw.values);
        }
        // the integral starts as the fourth power, where each step takes off a quarter only
        _ => {
            let scale = rng.scale(0, 30);
            draw.nodes2 = nodes(0, radii, rng);
            draw.values = (0..cells).map(|i| scale * [1.0, 0.0, 1.0, 6.0][i % radii % 4]).collect();
            draw.cdf = (0..cells).map(|i| if i % radii < 2 { 0.0 } else { 1.0 }).collect();
            draw.alpha = draw.nodes1[rng.below(rows)];
            draw.u = rng.scale(-12, -1).min(1.0);
        }
    }
    draw
}

fn any_allowance(rng: &mut Rng) -> u32 {
    [1, 2, 3, 4, 20, 21, 22, 999, 1000, 1000][rng.below(10)]
}

fn draws_from_tables(rng: &mut Rng, put: Put) {
    for kind in 0..TABLE_KINDS {
        for _ in 0..15 {
            let (rows, radii) = (rng.between(2, 5), rng.between(2, 6));
            let mut draw = table(kind, rows, radii, rng);
            for _ in 0..3 {
                draw.allowance = any_allowance(rng);
                put(TABLE_NAMES[kind], draw.case());
                draw.ask_elsewhere(rng);
            }
        }
    }
    for u in [0.0, -0.0, 1.0, down(1.0), 0.5, 1e-45, f32::MIN_POSITIVE] {
        for row in 0..3 {
            let mut draw = built(3, 4, &mut Rng(7));
            draw.u = u;
            draw.alpha = draw.nodes1[row];
            put(TABLE_NAMES[0], draw.case());
        }
    }
}

/// Draws sought by their number of rounds, each with just enough allowance, one too few, and plenty.
fn draws_by_rounds(rng: &mut Rng, put: Put) {
    let ends = [1, 2, 3, 4, 5, 6, 8, 11, 15, 20, 21, 22, 24, 28, 33, 40, 60, u32::MAX];
    let mut wanted = [8usize; 18];
    for turn in 0..400_000 {
        let kind = [1, 2, 3, 5, 7, 8, 9][turn % 7];
        let mut draw = table(kind, rng.between(2, 3), rng.between(2, 4), rng);
        let Some(rounds) = draw.rounds() else { continue };
        let place = ends.iter().position(|end| rounds <= *end).unwrap_or(0);
        if wanted[place] == 0 {
            continue;
        }
        wanted[place] -= 1;
        let allowances = if rounds == u32::MAX { vec![1, 21, 1000] } else { vec![rounds, rounds - 1, MOST_ROUNDS] };
        for allowance in allowances {
            if allowance > 0 {
                draw.allowance = allowance;
                put("draw, by rounds", draw.case());
            }
        }
    }
    assert!(wanted.iter().all(|left| *left == 0), "not enough draws of each number of rounds: {:?}", wanted);
}

/// The rounds end where a difference is below 1e-6: here it is that number, or beside it.
fn draws_at_the_tolerances(put: Put) {
    let class = "draw, tolerances";
    for tolerance in about(1e-6, 2) {
        // the integral is 0, and the target the tolerance
        let mut draw = flat(0.0, MOST_ROUNDS);
        draw.cdf = vec![0.0, 1.0, 1.0, 0.0, 0.0, 0.0];
        draw.u = tolerance;
        put(class, draw.case());
        // below 0, from a CDF that starts above the target
        draw.cdf[0] = tolerance;
        draw.u = 0.0;
        put(class, draw.case());
        // the first guess is the tolerance, and the upper bound from then on
        let mut draw = flat(0.0, MOST_ROUNDS);
        draw.nodes2 = vec![0.0, 1.0, 2.0, 3.0];
        draw.values = vec![-8e9, 1000.0, 1000.0, 1000.0, 0.0, 0.0, 0.0, 0.0];
        draw.cdf = vec![0.0, 0.0, 1.0, 1.0, 0.0, 0.0, 0.0, 0.0];
        draw.u = tolerance * 1000.0;
        put(class, draw.case());
    }
}

/// Rows whose weight is 0 hold what would spoil the draw.
fn draws_without_needed_rows(rng: &mut Rng, put: Put) {
    let class = "draw, rows not needed";
    for rows in 2..6 {
        for at in 0..rows {
            for poison in [f32::NAN, f32::INFINITY, f32::from_bits(0xff800001)] {
                let radii = rng.between(2, 5);
                let mut draw = built(rows, radii, rng);
                draw.alpha = draw.nodes1[at];
                draw.fill_rows(poison, &|row| row != at);
                put(class, draw.case());
            }
        }
    }
    // between two nodes the four rows about them are needed, and no other
    for at in 0..6 {
        let mut draw = built(7, 3, rng);
        draw.alpha = draw.nodes1[at] / 2.0 + draw.nodes1[at + 1] / 2.0;
        draw.fill_rows(f32::NAN, &|row| row + 1 < at || at + 2 < row);
        put(class, draw.case());
    }
}

fn draws_at_the_ends(rng: &mut Rng, put: Put) {
    for rows in [2, 3, 4] {
        for kind in [0, 1, 2, 5, 9, 10] {
            let mut draw = built(rows, 3, rng);
            draw.nodes1 = nodes(kind, rows, rng);
            let (first, last) = (draw.nodes1[0], draw.nodes1[rows - 1]);
            for alpha in [first, up(first), down(last), last] {
                draw.alpha = alpha;
                put("draw, first and last rows", draw.case());
            }
            for alpha in [down(first), up(last), f32::INFINITY, f32::NEG_INFINITY, rng.pick(&nans())] {
                draw.alpha = alpha;
                draw.allowance = any_allowance(rng);
                put("draw, outside", draw.case());
            }
        }
    }
}

fn draws_from_large_tables(rng: &mut Rng, put: Put) {
    for (rows, radii) in [(128, 2), (2, 64), (127, 2), (65, 3), (5, 63), (128, 64)] {
        let mut draw = built(rows, radii, rng);
        draw.alpha = draw.nodes1[rows / 2] + (draw.nodes1[rows / 2 + rows % 2 - 1] - draw.nodes1[rows / 2]) * 0.375;
        draw.u = 0.625;
        if rows * radii > 1000 {
            draw.fill_rows(0.0, &|row| row.abs_diff(rows / 2) > 2);
        }
        put("draw, large tables", draw.case());
    }
    for radii in [63, 64] {
        let mut draw = built(2, radii, rng);
        for u in [0.0, 0.125, 0.9375, 1.0] {
            draw.u = u;
            put("draw, large tables", draw.case());
        }
    }
}

/// A table of any lengths, with all else in order. The shorter of two begins the longer.
fn of_lengths(rows: usize, radii: usize, nv: usize, nc: usize, rng: &mut Rng) -> Draw {
    Draw {
        nodes1: nodes(0, rows.max(2), rng)[..rows].to_vec(),
        nodes2: nodes(1, radii.max(2), rng)[..radii].to_vec(),
        values: values(2, nv, &mut Rng(3)),
        cdf: values(1, nc, &mut Rng(4)),
        alpha: 0.5,
        u: 0.5,
        allowance: MOST_ROUNDS,
    }
}

fn draws_refused(rng: &mut Rng, put: Put) {
    let class = "draw, refused";
    // the numbers of nodes
    for (rows, radii) in
        [(0, 3), (1, 3), (129, 2), (130, 2), (3, 0), (3, 1), (2, 65), (2, 66), (0, 0), (1, 1), (129, 65), (0, 65), (2, 128)]
    {
        let cells = if rows * radii < 300 { rows * radii } else { 0 };
        put(class, of_lengths(rows, radii, cells, cells, rng).case());
    }
    // the other lengths
    for (rows, radii) in [(2usize, 2usize), (2, 3), (3, 2), (5, 4)] {
        let n = rows * radii;
        for (nv, nc) in
            [(n - 1, n), (n + 1, n), (n, n - 1), (n, n + 1), (n - 1, n - 1), (n + 1, n + 1), (n + 1, n - 1), (0, n), (n, 0), (0, 0)]
        {
            put(class, of_lengths(rows, radii, nv, nc, rng).case());
        }
        put(class, of_lengths(rows, radii, n - radii, n, rng).case());
        put(class, of_lengths(rows, radii, n, n + radii, rng).case());
    }
    // the nodes
    for kind in 0..SPOILT_KINDS {
        for n in [2, 4] {
            let mut draw = of_lengths(n, 3, 3 * n, 3 * n, rng);
            draw.nodes1 = spoilt(kind, n, rng);
            put(class, draw.case());
            let mut draw = of_lengths(3, n, 3 * n, 3 * n, rng);
            draw.nodes2 = spoilt(kind, n, rng);
            put(class, draw.case());
        }
    }
    // u and the allowance, with alpha inside and outside
    for alpha in [0.5, 7.0, f32::NAN] {
        for u in [up(1.0), -f32::from_bits(1), f32::INFINITY, f32::NEG_INFINITY, 2.0, -1.0, f32::MAX].into_iter().chain(nans()) {
            let mut draw = of_lengths(2, 3, 6, 6, rng);
            (draw.alpha, draw.u) = (alpha, u);
            put(class, draw.case());
        }
        for allowance in [0, 1001, 1002, 0x7fffffff, 0x80000000, u32::MAX] {
            let mut draw = of_lengths(2, 3, 6, 6, rng);
            (draw.alpha, draw.allowance) = (alpha, allowance);
            put(class, draw.case());
        }
    }
}

/// Every set of causes, so that the order of the checks shows.
fn draws_refused_for_several_causes(rng: &mut Rng, put: Put) {
    for causes in 0..256usize {
        put("draw, several causes", with_causes(causes, rng).case());
    }
}

/// A draw with the causes of a set of eight: N, M, lengths, either node list, u, the allowance, alpha.
fn with_causes(causes: usize, rng: &mut Rng) -> Draw {
    let has = |k: usize| causes >> k & 1 == 1;
    let rows = if has(0) { [0, 1, 1, 129][rng.below(if has(1) { 4 } else { 3 })] } else { rng.between(2, 4) };
    let radii = if has(1) { [0, 1, 1, 0, 1, 65][rng.below(if rows < 3 { 6 } else { 5 })] } else { rng.between(2, 4) };
    let cells = rows * radii;
    let (nv, nc) =
        if has(2) { [(cells + 1, cells), (cells, cells + 1), (cells.max(1) - 1, cells + 1)][rng.below(3)] } else { (cells, cells) };
    let mut draw = of_lengths(rows, radii, nv, nc, rng);
    if has(3) {
        draw.nodes1 = if rows < 2 { vec![f32::NAN; rows] } else { spoilt(rng.below(SPOILT_KINDS), rows, rng) };
    }
    if has(4) {
        draw.nodes2 = if radii < 2 { vec![f32::NAN; radii] } else { spoilt(rng.below(SPOILT_KINDS), radii, rng) };
    }
    if has(5) {
        draw.u = rng.pick(&[up(1.0), -1e-45, f32::NAN, f32::INFINITY, -1.0]);
    }
    if has(6) {
        draw.allowance = [0, 1001, u32::MAX][rng.below(3)];
    }
    if has(7) {
        draw.alpha = rng.pick(&[-1e-45, 1e9, f32::NAN]);
    }
    draw
}

// ---- random cases

/// A number of nodes from 2 to the most, mostly a small one.
fn any_length(most: usize, rng: &mut Rng) -> usize {
    match rng.below(100) {
        0 => [63, 64, 65, most - 1, most][rng.below(5)],
        1 | 2 => rng.between(2, most),
        _ => rng.between(2, 8),
    }
}

fn any_nodes(n: usize, rng: &mut Rng) -> Vec<f32> {
    if n >= 2 && rng.chance(4) {
        spoilt(rng.below(SPOILT_KINDS), n, rng)
    } else {
        nodes(rng.below(NODE_KINDS), n.max(2), rng)[..n].to_vec()
    }
}

fn any_weights(rng: &mut Rng) -> Case {
    let n = any_length(MOST_ROWS, rng);
    let n = if rng.chance(2) { [0, 1, 129, 130][rng.below(4)] } else { n };
    let nodes = any_nodes(n, rng);
    let x = match rng.below(20) {
        0 => rng.any(),
        1 if n > 0 => up(nodes[n - 1]),
        2 if n > 0 => down(nodes[0]),
        _ if n > 1 => within(&nodes, rng),
        _ => rng.unit(),
    };
    Case::Weights { nodes, x }
}

fn any_integral(rng: &mut Rng) -> Case {
    let n = any_length(MOST_ROWS, rng);
    let n = if rng.chance(2) { [0, 1, 129, 130][rng.below(4)] } else { n };
    let other = |rng: &mut Rng| if rng.chance(3) { [n + 1, n.max(1) - 1, 0][rng.below(3)] } else { n };
    let (nv, nc) = (other(rng), other(rng));
    Case::Integrate { nodes: any_nodes(n, rng), values: values(rng.below(VALUE_KINDS), nv, rng), cdf: nc }
}

/// A table, and where it is asked first.
fn any_draw(rng: &mut Rng) -> (&'static str, Draw) {
    if rng.chance(5) {
        return ("draw, several causes", with_causes(rng.below(256) & rng.below(256), rng));
    }
    let (rows, radii) = match rng.below(1000) {
        0 => (rng.between(2, MOST_ROWS), rng.between(2, MOST_RADII)),
        1..=3 => [(MOST_ROWS, 2), (3, MOST_RADII), (64, 3), (65, 2), (MOST_ROWS, MOST_RADII)][rng.below(5)],
        _ => (rng.between(2, 6), rng.between(2, 8)),
    };
    let kind = rng.below(TABLE_KINDS);
    let mut draw = table(kind, rows, radii, rng);
    match rng.below(40) {
        0 => draw.alpha = rng.pick(&SPECIAL),
        1 => draw.alpha = up(draw.nodes1[rows - 1]),
        2 => draw.alpha = down(draw.nodes1[0]),
        3 | 4 => {
            let at = rng.below(rows);
            draw.alpha = draw.nodes1[at];
            draw.fill_rows(rng.any(), &|row| row != at);
        }
        _ => {}
    }
    (TABLE_NAMES[kind], draw)
}

/// Draws from one table, with plenty of allowance, or some, or just enough, or one too few.
fn any_draws(rng: &mut Rng, put: Put) {
    let (class, mut draw) = any_draw(rng);
    for _ in 0..rng.between(1, 5) {
        put(class, draw.case());
        draw.ask_elsewhere(rng);
        draw.allowance = MOST_ROUNDS;
        draw.allowance = match rng.below(10) {
            0..=4 => MOST_ROUNDS,
            5..=7 => any_allowance(rng),
            less => draw.rounds().map_or(1, |rounds| rounds.min(MOST_ROUNDS) + 8 - less as u32),
        };
    }
}

fn any_case(rng: &mut Rng, put: Put) {
    match rng.below(20) {
        0..=7 => put("own, weights", any_weights(rng)),
        8..=11 => put("own, integral", any_integral(rng)),
        _ => any_draws(rng, put),
    }
}

/// A few cases, with their lists shown now and then.
pub fn random(rng: &mut Rng, put: history::Put) {
    let held = &mut Held::default();
    for _ in 0..rng.between(3, 12) {
        any_case(rng, &mut |class, case| held.play(&case, &mut History { class, put }));
    }
    if rng.chance(20) {
        History { class: "own, shown", put }.list(OWN + rng.below(4));
    }
}
