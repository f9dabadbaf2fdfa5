//! Which classes of calls a run holds: each has a name, stands in a group, and is counted.
use crate::calls::{lengths, Coefficients, Record};
use crate::numbers::{down, up};
use crate::protocol::Call;
use crate::rounds::MOST_ROUNDS;
use crate::state::{Answer, State, What};
use std::collections::BTreeMap;

/// The names of a group, and whether the call is of each.
type Classes<'a> = &'a [(&'static str, bool)];

/// What was there before a start or a build.
#[derive(Default)]
pub struct Before {
    marks: Vec<u8>,
    nans: bool,
    /// Whether a tally was going on, for a build one with its record.
    tally: bool,
}

#[derive(Default)]
pub struct Cover {
    groups: BTreeMap<&'static str, Vec<(&'static str, usize)>>,
}

// ---- what a float is

fn subnormal(x: f32) -> bool {
    x != 0.0 && x.abs() < f32::MIN_POSITIVE
}

fn minus_zero(x: f32) -> bool {
    x.to_bits() == 1 << 31
}

fn is(x: f32, list: &[f32]) -> bool {
    list.contains(&x)
}

/// Where a point is among nodes.
fn place(nodes: &[f32], x: f32) -> [(&'static str, bool); 8] {
    let (n, above) = (nodes.len(), nodes.partition_point(|node| *node <= x));
    let on = above > 0 && nodes[above - 1] == x;
    let between = !on && above > 0 && above < n;
    [
        ("on a node", on),
        ("in the first interval", between && above == 1),
        ("in the last interval", between && above + 1 == n),
        ("between inner nodes", between && above > 1 && above + 1 < n),
        ("below the first node", above == 0 && x.is_finite()),
        ("beyond the last node", above == n && !on && x.is_finite()),
        ("NaN", x.is_nan()),
        ("infinite", x.is_infinite()),
    ]
}

/// What a list of nodes is.
fn order(nodes: &[f32]) -> [(&'static str, bool); 8] {
    let gaps = || nodes.windows(2).map(|pair| pair[1] - pair[0]);
    let span = nodes.last().zip(nodes.first()).map_or(0.0, |(last, first)| last - first);
    let finite = nodes.iter().all(|x| x.is_finite());
    [
        ("NaN node", nodes.iter().any(|x| x.is_nan())),
        ("infinite node", nodes.iter().any(|x| x.is_infinite())),
        ("equal nodes", nodes.windows(2).any(|pair| pair[0] == pair[1])),
        ("falling nodes", nodes.windows(2).any(|pair| pair[0] > pair[1])),
        ("infinite span", finite && span.is_infinite()),
        ("gap above 1e30", gaps().any(|gap| gap.is_finite() && gap > 1e30)),
        ("subnormal gap", gaps().any(|gap| gap > 0.0 && subnormal(gap))),
        ("node -0", nodes.iter().any(|x| minus_zero(*x))),
    ]
}

fn exponent(x: f32) -> usize {
    (x.to_bits() >> 23 & 255) as usize
}

const EXPONENTS: [&str; 16] = [
    "exponents 0 to 15",
    "16 to 31",
    "32 to 47",
    "48 to 63",
    "64 to 79",
    "80 to 95",
    "96 to 111",
    "112 to 127",
    "128 to 143",
    "144 to 159",
    "160 to 175",
    "176 to 191",
    "192 to 207",
    "208 to 223",
    "224 to 239",
    "240 to 255",
];

const SHORT: [&str; 6] = [
    "albedo nodes too short",
    "radius nodes too short",
    "profile too short",
    "effective albedos too short",
    "CDF too short",
    "marks too short",
];
const LONG: [&str; 6] = [
    "albedo nodes too long",
    "radius nodes too long",
    "profile too long",
    "effective albedos too long",
    "CDF too long",
    "marks too long",
];

/// Whether no check up to the one of a number refuses.
fn passes(number: u32, what: What) -> bool {
    !matches!(what, What::Refused(k) if k <= number)
}

impl Cover {
    /// Counts the call in the classes of a group that it is of.
    fn note(&mut self, group: &'static str, classes: Classes) {
        let counts = self.groups.entry(group).or_insert_with(|| classes.iter().map(|(name, _)| (*name, 0)).collect());
        counts.iter_mut().zip(classes).for_each(|((_, count), (_, of))| *count += *of as usize);
    }

    fn record(&mut self, r: &Record) {
        let (g, eta) = (r.g, r.eta);
        self.note(
            "records",
            &[
                ("N below 2", r.n < 2),
                ("N 2", r.n == 2),
                ("N 128", r.n == 128),
                ("N 129", r.n == 129),
                ("N 4294967295", r.n == u32::MAX),
                ("M below 2", r.m < 2),
                ("M 2", r.m == 2),
                ("M 64", r.m == 64),
                ("M 65", r.m == 65),
                ("M 4294967295", r.m == u32::MAX),
                ("g NaN", g.is_nan()),
                ("g infinite", g.is_infinite()),
                ("g -0", minus_zero(g)),
                ("g subnormal", subnormal(g)),
                ("g -1", g == -1.0),
                ("g 1", g == 1.0),
                ("g beside an end, inside", is(g, &[up(-1.0), down(1.0)])),
                ("g beyond an end", g.is_finite() && g.abs() > 1.0),
                ("eta NaN", eta.is_nan()),
                ("eta infinite", eta.is_infinite()),
                ("eta -0", minus_zero(eta)),
                ("eta subnormal", subnormal(eta)),
                ("eta 1", eta == 1.0),
                ("eta 2", eta == 2.0),
                ("eta beside an end, inside", is(eta, &[up(1.0), down(2.0)])),
                ("eta beside an end, outside", is(eta, &[down(1.0), up(2.0)])),
                ("eta beyond an end", eta.is_finite() && !(1.0..=2.0).contains(&eta)),
            ],
        );
    }

    /// Lent lists of a record in range.
    fn lent(&mut self, r: &Record, state: &mut State) {
        let (right, are) = (lengths(r), state.store.lent_lengths());
        let shorter = [0, 1, 2, 3, 4, 5].map(|list| (SHORT[list], (are[list] as u64) < right[list]));
        let longer = [0, 1, 2, 3, 4, 5].map(|list| (LONG[list], are[list] as u64 > right[list]));
        self.note("lent lists", &[shorter, longer].concat());
        let lists = state.store.lists();
        self.note("albedo nodes", &order(lists.rho_samples));
        self.note("radius nodes", &order(lists.radius_samples));
        self.note(
            "lent contents",
            &[
                ("mark other than 0 and 1", lists.marks.iter().any(|mark| *mark > 1)),
                ("NaN in the profile", lists.profile.iter().any(|x| x.is_nan())),
                ("infinity in the profile", lists.profile.iter().any(|x| x.is_infinite())),
                ("NaN in the CDF", lists.profile_cdf.iter().any(|x| x.is_nan())),
            ],
        );
    }

    fn start(&mut self, before: &Before, what: What) {
        let done = what == What::Done;
        self.note(
            "starts",
            &[
                ("over built rows", done && before.marks.contains(&1)),
                ("over other marks", done && before.marks.iter().any(|mark| *mark > 1)),
                ("over NaNs", done && before.nans),
                ("over a tally's table", done && before.tally),
                ("refused, a tally going on", !done && before.tally),
            ],
        );
    }

    fn build(&mut self, r: &Record, row: u32, before: &Before, what: What) {
        let done = matches!(what, What::Value(_));
        let Before { marks, tally, .. } = before;
        let at = (row as usize).min(marks.len());
        self.note(
            "builds",
            &[
                ("row 0", row == 0),
                ("row N - 1", row == r.n.wrapping_sub(1)),
                ("row N", row == r.n),
                ("row beyond N", row > r.n),
                ("row 4294967295", row == u32::MAX),
                ("after a lower row", done && marks[..at].contains(&1)),
                ("after a higher row", done && marks[at + 1..].contains(&1)),
                ("row built again", done && marks[at] == 1),
                ("row of another mark", done && marks[at] > 1),
                (
                    "last row that is missing",
                    done && marks[at] != 1 && marks.iter().filter(|mark| **mark == 1).count() + 1 == marks.len(),
                ),
                ("refused, by the tally", !done && *tally),
                ("refused, on the lists alone", !done && !tally),
                ("on the lists alone", done && !tally),
            ],
        );
    }

    fn coefficients(&mut self, c: &Coefficients) {
        let any = |of: &dyn Fn(f32) -> bool| c.sigma_a.iter().chain(&c.sigma_s).any(|x| of(*x));
        let sums = [0, 1, 2].map(|ch| c.sigma_a[ch] + c.sigma_s[ch]);
        let finite = !any(&|x| !x.is_finite());
        self.note(
            "coefficients",
            &[
                ("negative", any(&|x| x < 0.0)),
                ("NaN", any(&|x| x.is_nan())),
                ("infinite", any(&|x| x.is_infinite())),
                ("sum infinite", finite && sums.iter().any(|sum| sum.is_infinite())),
                ("-0", any(&minus_zero)),
                ("1e18 or more", any(&|x| x >= 1e18)),
                ("tiny", any(&|x| x > 0.0 && x < 1e-30)),
                ("subnormal", any(&subnormal)),
            ],
        );
    }

    /// The channels that a query is about, at a world radius if it has one.
    fn channels(&mut self, channels: &[usize], c: &Coefficients, radius: Option<f32>, state: &mut State) {
        let lists = state.lists();
        for ch in channels {
            let sigma_t = c.sigma_a[*ch] + c.sigma_s[*ch];
            let albedo = if sigma_t == 0.0 { 0.0 } else { c.sigma_s[*ch] / sigma_t };
            self.note("channels", &[("albedo 0", albedo == 0.0), ("albedo 1", albedo == 1.0), ("clear", sigma_t == 0.0)]);
            // it is never a NaN, nor infinite
            self.note("albedos", &place(lists.rho_samples, albedo)[..6]);
            if let Some(x) = radius {
                self.note("optical radii", &place(lists.radius_samples, x * sigma_t));
                self.note(
                    "world radii",
                    &[("0", x.to_bits() == 0), ("-0", minus_zero(x)), ("NaN", x.is_nan()), ("below 0", x < 0.0)],
                );
            }
        }
    }

    fn sampling(
        &mut self,
        [us, allowances]: [&'static str; 2],
        u: f32,
        allowance: u32,
        answer: &Answer,
        enough: impl FnOnce() -> bool,
    ) {
        self.note(
            us,
            &[
                ("0", u.to_bits() == 0),
                ("-0", minus_zero(u)),
                ("1", u == 1.0),
                ("beside an end, inside", is(u, &[up(0.0), down(1.0)])),
                ("beside an end, outside", is(u, &[down(0.0), up(1.0)])),
                ("between", u > 0.0 && u < 1.0),
                ("beyond an end", u.is_finite() && !(0.0..=1.0).contains(&u)),
                ("NaN", u.is_nan()),
                ("infinite", u.is_infinite()),
            ],
        );
        let used_up = answer.what == What::Refused(13);
        self.note(
            allowances,
            &[
                ("1", allowance == 1),
                ("1000", allowance == MOST_ROUNDS),
                ("0", allowance == 0),
                ("1001", allowance == MOST_ROUNDS + 1),
                ("4294967295", allowance == u32::MAX),
                ("just enough", answer.rounds > 0 && answer.rounds == allowance),
                ("one too few", used_up && allowance < MOST_ROUNDS && enough()),
                ("no end", used_up && allowance == MOST_ROUNDS),
                ("20 rounds or more", answer.rounds >= 20),
            ],
        );
    }

    /// As many nodes as a table has albedos, or radii.
    fn own_rows(&mut self, groups: [&'static str; 2], nodes: &[f32]) {
        let n = nodes.len();
        self.note(groups[0], &[("none", n == 0), ("1", n == 1), ("2", n == 2), ("128", n == 128), ("129", n == 129)]);
        self.note(groups[1], &order(nodes));
    }

    fn own_radii(&mut self, nodes: &[f32]) {
        let n = nodes.len();
        let counts = [("none", n == 0), ("1", n == 1), ("2", n == 2), ("64", n == 64), ("65", n == 65)];
        self.note("sample2d, number of second nodes", &counts);
        self.note("sample2d, second nodes", &order(nodes));
    }

    fn own_values(&mut self, groups: [&'static str; 2], values: &[f32], cdf: &[f32], right: usize) {
        self.note(
            groups[0],
            &[
                ("values too short", values.len() < right),
                ("values too long", values.len() > right),
                ("CDF too short", cdf.len() < right),
                ("CDF too long", cdf.len() > right),
            ],
        );
        self.note(
            groups[1],
            &[
                ("NaN", values.iter().any(|x| x.is_nan())),
                ("infinite", values.iter().any(|x| x.is_infinite())),
                ("subnormal", values.iter().any(|x| subnormal(*x))),
                ("-0", values.iter().any(|x| minus_zero(*x))),
                ("huge", values.iter().any(|x| x.is_finite() && x.abs() > 1e30)),
            ],
        );
    }

    fn surface_term(&mut self, eta: f32, cosine: f32) {
        self.note(
            "sw, eta",
            &[
                ("1", eta == 1.0),
                ("2", eta == 2.0),
                ("NaN", eta.is_nan()),
                ("infinite", eta.is_infinite()),
                ("beside an end, outside", is(eta, &[down(1.0), up(2.0)])),
                ("beyond", eta.is_finite() && !(1.0..=2.0).contains(&eta)),
            ],
        );
        self.note(
            "sw, cosine",
            &[
                ("0", cosine.to_bits() == 0),
                ("-0", minus_zero(cosine)),
                ("1", cosine == 1.0),
                ("-1", cosine == -1.0),
                ("above 0", cosine > 0.0 && cosine < 1.0),
                ("below 0", cosine < 0.0 && cosine > -1.0),
                ("beyond", cosine.is_finite() && cosine.abs() > 1.0),
                ("infinite", cosine.is_infinite()),
                ("NaN", cosine.is_nan()),
                ("subnormal", subnormal(cosine)),
            ],
        );
    }

    fn float(&mut self, groups: [&'static str; 2], x: f32) {
        let field = exponent(x) / 16;
        self.note(groups[0], &std::array::from_fn::<_, 16, _>(|k| (EXPONENTS[k], k == field)));
        self.note(
            groups[1],
            &[
                ("0", x.to_bits() == 0),
                ("-0", minus_zero(x)),
                ("subnormal", subnormal(x)),
                ("below 0", x < 0.0),
                ("infinite", x.is_infinite()),
                ("NaN", x.is_nan()),
                ("signalling NaN", x.is_nan() && x.to_bits() >> 22 & 1 == 0),
            ],
        );
    }

    fn exponential(&mut self, x: f32) {
        self.float(["e, exponents", "e"], x);
        self.note(
            "e, ends",
            &[
                ("-104", x == -104.0),
                ("below -104", x < -104.0),
                ("beside -104", is(x, &[up(-104.0), down(-104.0)])),
                ("89", x == 89.0),
                ("above 89", x > 89.0),
                ("beside 89", is(x, &[up(89.0), down(89.0)])),
                ("subnormal result", x >= -104.0 && x < -87.4),
            ],
        );
    }

    fn logarithm(&mut self, x: f32) {
        let field = exponent(x) / 16;
        self.note("l, exponents", &std::array::from_fn::<_, 8, _>(|k| (EXPONENTS[k], k == field)));
        self.note("l, ends", &[("the least normal", x == f32::MIN_POSITIVE), ("beside 1", x == down(1.0)), ("a half", x == 0.5)]);
    }

    /// Counts a call before it is made, and says what there is.
    pub fn before(&mut self, call: &Call, state: &mut State) -> Before {
        match call {
            Call::Start(r) | Call::Build(r, _) | Call::Sr(r, ..) | Call::Pdf(r, ..) | Call::Draw(r, ..) => {
                self.record(r);
                if !state.tallied(call) {
                    self.lent(r, state);
                }
            }
            Call::Sw(eta, cosine) => self.surface_term(*eta, *cosine),
            Call::Weights(x) => {
                let ([nodes, ..], _) = state.store.own();
                self.own_rows(["weights, number of nodes", "weights, nodes"], nodes);
                self.note("weights, x", &place(nodes, *x));
            }
            Call::Integrate => {
                let ([nodes, _, values], cdf) = state.store.own();
                self.own_rows(["integrate, number of nodes", "integrate, nodes"], nodes);
                self.own_values(["integrate, lengths", "integrate, values"], values, cdf, nodes.len());
            }
            Call::Sample2d(alpha, ..) => {
                let ([nodes1, nodes2, values], cdf) = state.store.own();
                self.own_rows(["sample2d, number of first nodes", "sample2d, first nodes"], nodes1);
                self.own_radii(nodes2);
                self.own_values(["sample2d, lengths", "sample2d, values"], values, cdf, nodes1.len() * nodes2.len());
                self.note("sample2d, alpha", &place(nodes1, *alpha));
            }
            Call::Q(x) => self.float(["q, exponents", "q"], *x),
            Call::E(x) => self.exponential(*x),
            Call::L(x) => self.logarithm(*x),
            _ => {}
        }
        if !matches!(call, Call::Start(_) | Call::Build(..)) {
            return Before::default();
        }
        let tally = if matches!(call, Call::Start(_)) { state.has_tally() } else { state.tallied(call) };
        let lists = state.store.lists();
        Before { marks: lists.marks.to_vec(), nans: lists.profile.iter().any(|x| x.is_nan()), tally }
    }

    /// A query of some channels.
    fn query(&mut self, channels: &[usize], c: &Coefficients, radius: Option<f32>, what: What, state: &mut State) {
        if passes(6, what) {
            self.coefficients(c);
        }
        if passes(10, what) {
            self.channels(channels, c, radius, state);
        }
    }

    /// Counts a call after it was made, by its answer too.
    pub fn after(&mut self, call: &Call, before: &Before, answer: &Answer, state: &mut State) {
        match call {
            Call::Start(_) => self.start(before, answer.what),
            Call::Build(r, row) => self.build(r, *row, before, answer.what),
            Call::Sr(_, c, x) => self.query(&[0, 1, 2], c, Some(*x), answer.what, state),
            Call::Pdf(_, c, ch, x) => self.query(&[*ch], c, Some(*x), answer.what, state),
            Call::Draw(r, c, ch, u, allowance) => {
                self.query(&[*ch], c, None, answer.what, state);
                if passes(8, answer.what) {
                    let enough = || ends(&Call::Draw(*r, *c, *ch, *u, allowance + 1), state);
                    self.sampling(["draw, u", "draw, allowance"], *u, *allowance, answer, enough);
                }
            }
            Call::Sample2d(alpha, u, allowance) if passes(6, answer.what) => {
                let enough = || ends(&Call::Sample2d(*alpha, *u, allowance + 1), state);
                self.sampling(["sample2d, u", "sample2d, allowance"], *u, *allowance, answer, enough);
            }
            _ => {}
        }
    }

    pub fn add(&mut self, other: Cover) {
        for (group, counts) in other.groups {
            let sums = self.groups.entry(group).or_insert_with(|| counts.iter().map(|(name, _)| (*name, 0)).collect());
            sums.iter_mut().zip(counts).for_each(|((_, sum), (_, count))| *sum += count);
        }
    }

    /// The groups with their counts, a line each.
    pub fn lines(&self) -> Vec<String> {
        let line = |(group, counts): (&&str, &Vec<(&str, usize)>)| {
            let counts: Vec<String> = counts.iter().map(|(name, count)| format!("{} {}", name, count)).collect();
            format!("{}: {}", group, counts.join(", "))
        };
        self.groups.iter().map(line).collect()
    }

    /// The classes of which there was no call.
    pub fn missing(&self) -> Vec<String> {
        let missing = |(group, counts): (&&'static str, &Vec<(&'static str, usize)>)| {
            let group = *group;
            counts.iter().filter(|(_, count)| *count == 0).map(move |(name, _)| format!("{}: {}", group, name)).collect::<Vec<_>>()
        };
        self.groups.iter().flat_map(missing).collect()
    }
}

/// Whether a draw ends within its allowance.
fn ends(call: &Call, state: &mut State) -> bool {
    state.answer(call).what != What::Refused(13)
}
