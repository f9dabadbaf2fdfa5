//! Every refusal: where it begins, that the first that applies is given, and that a refused call writes nothing.
use gauzespar::spline::{integrate, sample_2d, weights};
use gauzespar::{sw, Channel, Coefficients, Record, Refusal, Table, WorldRadius};

#[path = "shared/answers.rs"]
mod answers;
#[path = "shared/kept.rs"]
mod kept;
#[path = "../../oracle/shared/numbers.rs"]
mod numbers;

use answers::{of_drawn, of_nothing, of_one, of_rows, of_sample, of_three, of_weights, Answer};
use kept::Kept;
use numbers::{down, up};

/// What the calls on a table are given.
#[derive(Clone)]
struct Given {
    record: Record,
    kept: Kept,
    row: usize,
    tint: Coefficients,
    radius: WorldRadius,
    u: f32,
    allowance: u32,
}

fn alike(sigma_a: f32, sigma_s: f32) -> Coefficients {
    Coefficients { sigma_a: [sigma_a; 3], sigma_s: [sigma_s; 3] }
}

/// Nothing is refused: two rows of three radii, with a profile of zeros under a CDF that rises, from which a draw takes 21 rounds.
fn accepted() -> Given {
    let cdf = vec![0.0, 1.0, 2.0, 0.0, 0.0, 0.0];
    let floats = [vec![0.0, 1.0], vec![0.0, 1.0, 2.0], vec![0.0; 6], vec![0.0; 2], cdf];
    Given {
        record: Record::new(2, 3, 0.0, 1.5),
        kept: Kept { floats, marks: vec![1, 1] },
        row: 1,
        tint: alike(1.0, 0.0),
        radius: WorldRadius(1.0),
        u: 0.75,
        allowance: 21,
    }
}

/// Makes one thing wrong, so that the refusal of this number applies, whatever is wrong beside it.
fn spoil(given: &mut Given, number: u32) {
    match number {
        1 => given.record.n = 1,
        2 => given.record.m = 65,
        3 => given.record.g = 1.0,
        4 => given.record.eta = f32::NAN,
        5 => given.kept.floats[3].push(0.0),
        6 => given.kept.floats[0][1] = 0.0,
        7 => given.row = 2,
        8 => given.tint.sigma_s[2] = -1.0,
        9 => given.u = 1.5,
        10 => given.allowance = 0,
        11 => given.kept.marks[0] = 2,
        12 => given.tint.sigma_a[1] = 1e30,
        13 => given.allowance = given.allowance.min(20),
        _ => panic!("{number} is no refusal"),
    }
}

/// A call, its name and the numbers that it can be refused with.
type Call = (&'static str, &'static [u32], fn(&mut Given) -> Answer);

const CALLS: [Call; 6] = [
    ("start", &[1, 2, 3, 4, 5], |g| of_nothing(g.kept.lists().start(g.record))),
    ("build", &[1, 2, 3, 4, 5, 6, 7], |g| of_nothing(g.kept.lists().build(g.record, g.row))),
    ("sr", &[1, 2, 3, 4, 5, 6, 8, 11, 12], |g| of_three(g.kept.view().sr(g.record, g.tint, g.radius))),
    ("pdf_sr", &[1, 2, 3, 4, 5, 6, 8, 11], |g| of_one(g.kept.view().pdf_sr(g.record, Channel::Red, g.tint, g.radius))),
    ("sample_sr", &[1, 2, 3, 4, 5, 6, 8, 9, 10, 11, 13], |g| {
        of_drawn(g.kept.view().sample_sr(g.record, Channel::Red, g.tint, g.u, g.allowance))
    }),
    ("needed_rows", &[1, 2, 3, 4, 5, 6, 8], |g| of_rows(g.kept.view().needed_rows(g.record, g.tint))),
];

/// Requires a refusal with this number, or an answer for 0; and that a refused call left every list as it was.
fn require(call: &Call, given: &Given, number: u32) {
    let mut after = given.clone();
    let answer = (call.2)(&mut after);
    assert_eq!(answer.err().map_or(0, Refusal::number), number, "{}", call.0);
    if number > 0 {
        assert!(after.kept.bytes() == given.kept.bytes(), "{} wrote though it was refused with {number}", call.0);
    }
}

/// Each thing alone is refused by the calls that it concerns, and by no others.
#[test]
fn one_thing_wrong() {
    for call in &CALLS {
        require(call, &accepted(), 0);
        for refusal in Refusal::ALL {
            let mut given = accepted();
            spoil(&mut given, refusal.number());
            let expected = if call.1.contains(&refusal.number()) { refusal.number() } else { 0 };
            require(call, &given, expected);
        }
    }
}

/// Where two things are wrong the one with the lower number is told.
#[test]
fn two_things_wrong() {
    for call in &CALLS {
        for first in call.1 {
            for second in call.1.iter().filter(|second| *second > first) {
                let mut given = accepted();
                spoil(&mut given, *second);
                spoil(&mut given, *first);
                require(call, &given, *first);
            }
        }
    }
}

/// A record, and the number it is refused with, or 0.
fn records() -> Vec<(Record, u32)> {
    let fine = Record::new(2, 2, 0.0, 1.5);
    let rows = [(0, 1), (1, 1), (2, 0), (128, 0), (129, 1), (1 << 32 | 2, 1), (usize::MAX, 1)];
    let radii = [(0, 2), (1, 2), (2, 0), (64, 0), (65, 2), (1 << 32 | 2, 2), (usize::MAX, 2)];
    let g = [(-1.0, 3), (up(-1.0), 0), (-0.0, 0), (down(1.0), 0), (1.0, 3), (f32::NAN, 3), (f32::NEG_INFINITY, 3)];
    let eta = [(down(1.0), 4), (1.0, 0), (2.0, 0), (up(2.0), 4), (f32::NAN, 4), (f32::INFINITY, 4), (-1.5, 4)];
    let mut all = Vec::new();
    all.extend(rows.map(|(n, number)| (Record { n, ..fine }, number)));
    all.extend(radii.map(|(m, number)| (Record { m, ..fine }, number)));
    all.extend(g.map(|(g, number)| (Record { g, ..fine }, number)));
    all.extend(eta.map(|(eta, number)| (Record { eta, ..fine }, number)));
    all
}

#[test]
fn limits_of_the_record() {
    for (record, number) in records() {
        let answer = Table::start(record).map(|table| table.built_rows());
        assert_eq!(answer, if number == 0 { Ok(vec![]) } else { Err(Refusal::from_number(number).unwrap()) }, "{record:?}");
    }
    let named = [(Record::MIN_ROWS, Record::MIN_RADII), (Record::MAX_ROWS, Record::MAX_RADII)];
    assert_eq!(named, [(2, 2), (128, 64)]);
    assert_eq!(Table::start(Record::new(usize::MAX, usize::MAX, 2.0, 0.0)).unwrap_err(), Refusal::Rows);
}

#[test]
fn lengths_of_the_lists() {
    for call in &CALLS {
        for list in 0..6 {
            let mut longer = accepted();
            let mut shorter = accepted();
            if list < 5 {
                longer.kept.floats[list].push(9.0);
                shorter.kept.floats[list].pop();
            } else {
                longer.kept.marks.push(1);
                shorter.kept.marks.pop();
            }
            require(call, &longer, 5);
            require(call, &shorter, 5);
        }
    }
}

#[test]
fn bad_nodes() {
    let bad = [
        [0.0, f32::NAN],
        [f32::NEG_INFINITY, 1.0],
        [0.0, f32::INFINITY],
        [1.0, 0.0],
        [1.0, 1.0],
        [-0.0, 0.0],
        [f32::MIN, f32::MAX],
    ];
    let asking = CALLS.iter().filter(|call| call.1.contains(&6));
    for (call, nodes) in asking.flat_map(|call| bad.map(|nodes| (call, nodes))) {
        for list in 0..2 {
            let mut given = accepted();
            let last = given.kept.floats[list].len() - 1;
            (given.kept.floats[list][0], given.kept.floats[list][last]) = (nodes[0], nodes[1]);
            require(call, &given, 6);
        }
    }
    assert_eq!(weights(&[f32::MIN, f32::MAX], 0.0), Err(Refusal::Nodes));
    assert_eq!(weights(&[0.0, 1.0, 1.0], 0.0), Err(Refusal::Nodes));
}

#[test]
fn numbers_of_rows() {
    let mut table = Table::start(Record::new(3, 2, 0.0, 1.5)).unwrap();
    let before = table.clone();
    for row in [3, 4, 1 << 32, usize::MAX] {
        assert_eq!(table.build(row), Err(Refusal::RowNumber));
    }
    assert!(table.same_as(&before));
    assert_eq!(table.build(2), Ok(()));
}

/// At every n and every m: a row below n is built, any other refused with 7; and with all rows built a query is refused for its
/// arguments alone.
#[test]
fn started_tables() {
    let sizes = (2..=128).map(|n| (n, 2)).chain((3..=64).map(|m| (2, m))).chain([(128, 64)]);
    for (n, m) in sizes {
        let mut table = Table::start(Record::new(n, m, 0.0, 1.33)).unwrap();
        for row in 0..n {
            assert_eq!(table.build(row), Ok(()), "{n} by {m}: row {row}");
        }
        for row in [n, n + 1, usize::MAX] {
            assert_eq!(table.build(row), Err(Refusal::RowNumber), "{n} by {m}: row {row}");
        }
        let radius = WorldRadius(0.001);
        for tint in [alike(0.0, 1.0), alike(0.1, 1.0), alike(1.0, 1.0), alike(1.0, 0.0), alike(0.0, 0.0)] {
            assert!(table.sr(tint, radius).is_ok(), "{n} by {m}: {tint:?}");
            assert!(table.pdf_sr(Channel::Green, tint, radius).is_ok(), "{n} by {m}: {tint:?}");
            let drawn = table.sample_sr(Channel::Green, tint, 0.5, 1000);
            assert!(matches!(drawn, Ok(_) | Err(Refusal::Exhausted)), "{n} by {m}: {tint:?}, {drawn:?}");
        }
        let bad = alike(-1.0, 1.0);
        assert_eq!(table.sr(bad, radius), Err(Refusal::Coefficients));
        assert_eq!(table.pdf_sr(Channel::Red, bad, radius), Err(Refusal::Coefficients));
        assert_eq!(table.sample_sr(Channel::Red, bad, 0.5, 1).err(), Some(Refusal::Coefficients));
        assert_eq!(table.sample_sr(Channel::Red, alike(1.0, 1.0), 2.0, 1).err(), Some(Refusal::Argument));
        assert_eq!(table.sample_sr(Channel::Red, alike(1.0, 1.0), 0.5, 0).err(), Some(Refusal::Allowance));
    }
}

#[test]
fn bad_coefficients() {
    let table = Table::start(Record::new(3, 2, 0.0, 1.5)).unwrap();
    let outside = WorldRadius(-1.0);
    let given = |tint: Coefficients| {
        let all = [
            table.sr(tint, outside).map(|_| ()),
            table.pdf_sr(Channel::Red, tint, outside).map(|_| ()),
            table.sample_sr(Channel::Red, tint, 0.5, 1).map(|_| ()),
            table.needed_rows(tint).map(|_| ()),
            table.missing_rows(tint).map(|_| ()),
            table.clone().ensure_rows_for(tint).map(|_| ()),
        ];
        all.map(|answer| answer == Err(Refusal::Coefficients))
    };
    for place in 0..6 {
        for (value, refused) in [(-1e-45, true), (f32::NAN, true), (f32::INFINITY, true), (-0.0, false), (1e-45, false)] {
            let mut six = [1.0; 6];
            six[place] = value;
            let tint = Coefficients { sigma_a: [six[0], six[1], six[2]], sigma_s: [six[3], six[4], six[5]] };
            assert_eq!(given(tint), [refused; 6], "{tint:?}");
        }
    }
    let large = Coefficients { sigma_a: [0.0, f32::MAX, 0.0], sigma_s: [0.0, f32::MAX, 0.0] };
    assert_eq!(given(large), [true; 6]);
    assert_eq!(given(Coefficients { sigma_s: [f32::MAX, 0.0, f32::MAX], ..large }), [false; 6]);
}

#[test]
fn arguments_of_a_draw() {
    let given = accepted();
    let draw = |u, allowance| given.kept.view().sample_sr(given.record, Channel::Green, given.tint, u, allowance).map(|_| ());
    for u in [-1e-45, up(1.0), f32::NAN, f32::INFINITY] {
        assert_eq!(draw(u, 1000), Err(Refusal::Argument));
    }
    for u in [-0.0, 0.0, 1.0] {
        assert_ne!(draw(u, 1000), Err(Refusal::Argument));
    }
    for allowance in [0, 1001, u32::MAX] {
        assert_eq!(draw(0.75, allowance), Err(Refusal::Allowance));
    }
    assert_eq!(
        [1, 20, 21, 1000].map(|allowance| draw(0.75, allowance)),
        [Err(Refusal::Exhausted), Err(Refusal::Exhausted), Ok(()), Ok(())]
    );
}

/// sigma_t squared overflows, and meets the 0 of a channel that is outside.
#[test]
fn a_radiance_that_is_not_a_number() {
    let mut table = Table::start(Record::new(3, 2, 0.0, 1.5)).unwrap();
    let outside = WorldRadius(1.0);
    assert_eq!(table.sr(alike(1e30, 0.0), outside), Err(Refusal::NotANumber));
    assert_eq!(table.sr(alike(1e10, 0.0), outside), Ok([0.0; 3]));
    assert_eq!(table.pdf_sr(Channel::Red, alike(1e30, 0.0), outside), Ok(0.0));
    assert_eq!(table.sr(Coefficients { sigma_a: [1e30, 1.0, 1.0], ..alike(0.0, 0.0) }, WorldRadius(0.0)), Err(Refusal::RowMissing));
    assert_eq!(table.ensure_rows_for(alike(1e30, 0.0)), Ok(vec![0]));
}

#[test]
fn the_fresnel_term() {
    for eta in [down(1.0), up(2.0), f32::NAN] {
        assert_eq!(sw(eta, f32::NAN), Err(Refusal::RefractiveIndex));
    }
    assert_eq!(sw(1.5, f32::NAN), Err(Refusal::Argument));
    for cosine in [-2.0, f32::INFINITY] {
        assert_ne!(sw(1.0, cosine), Err(Refusal::Argument));
    }
}

#[test]
fn weights_of_bad_lists() {
    let line: Vec<f32> = (0..129).map(|k| k as f32).collect();
    let answer = |count: usize| of_weights(weights(&line[..count], 0.5)).err();
    assert_eq!([0, 1, 2, 128, 129].map(answer), [Some(Refusal::Rows), Some(Refusal::Rows), None, None, Some(Refusal::Rows)]);
    assert_eq!(weights(&[f32::NAN], 0.0), Err(Refusal::Rows));
}

#[test]
fn integrals_of_bad_lists() {
    let given = |nodes: &[f32], values: &[f32], count: usize| {
        let mut cdf = vec![7.0; count];
        let answer = integrate(nodes, values, &mut cdf);
        assert!(cdf == vec![7.0; count], "a refused integral wrote");
        answer.unwrap_err()
    };
    assert_eq!(given(&[f32::NAN], &[], 3), Refusal::Rows);
    assert_eq!(given(&[1.0, 0.0], &[0.0], 2), Refusal::Length);
    assert_eq!(given(&[1.0, 0.0], &[0.0; 2], 3), Refusal::Length);
    assert_eq!(given(&[1.0, 0.0], &[0.0; 2], 1), Refusal::Length);
    assert_eq!(given(&[1.0, 0.0], &[0.0; 2], 2), Refusal::Nodes);
}

/// Everything is wrong at first, and is mended in the order of the numbers.
#[test]
fn two_dimensions_of_bad_lists() {
    let (zeros, cdf, rising, falling) = ([0.0; 6], [0.0, 1.0, 2.0, 0.0, 0.0, 0.0], [0.0, 1.0, 2.0], [2.0, 1.0, 0.0]);
    let draw = |nodes1: &[f32], nodes2: &[f32], values: &[f32], cdf: &[f32], u, allowance| {
        of_sample(sample_2d(nodes1, nodes2, values, cdf, 0.0, u, allowance)).err().map_or(0, Refusal::number)
    };
    assert_eq!(draw(&[1.0], &[0.0; 65], &zeros[1..], &cdf, 2.0, 0), 1);
    assert_eq!(draw(&[1.0, 0.0], &[0.0; 65], &zeros[1..], &cdf, 2.0, 0), 2);
    assert_eq!(draw(&[1.0, 0.0], &falling, &zeros[1..], &cdf, 2.0, 0), 5);
    assert_eq!(draw(&[1.0, 0.0], &falling, &zeros, &cdf[1..], 2.0, 0), 5);
    assert_eq!(draw(&[1.0, 0.0], &falling, &zeros, &cdf, 2.0, 0), 6);
    assert_eq!(draw(&[0.0, 1.0], &falling, &zeros, &cdf, 2.0, 0), 6);
    assert_eq!(draw(&[0.0, 1.0], &rising, &zeros, &cdf, 2.0, 0), 9);
    assert_eq!(draw(&[0.0, 1.0], &rising, &zeros, &cdf, 0.75, 0), 10);
    assert_eq!(draw(&[0.0, 1.0], &rising, &zeros, &cdf, 0.75, 20), 13);
    assert_eq!(draw(&[0.0, 1.0], &rising, &zeros, &cdf, 0.75, 21), 0);
}

/// The numbers are 1 to 13, and each is told in words, the same as in C.
#[test]
fn numbers_and_words() {
    let header = include_str!("../../include/gauzespar.h");
    for (number, refusal) in (1..).zip(Refusal::ALL) {
        assert_eq!((refusal.number(), Refusal::from_number(number)), (number, Some(refusal)));
        assert_eq!(refusal.to_string(), format!("refusal {number}: {}", refusal.meaning()));
        assert!(header.contains(&format!("\"{}\"", refusal.meaning())), "the header has other words for {number}");
    }
    assert_eq!([0, 14, 100].map(Refusal::from_number), [None; 3]);
}
