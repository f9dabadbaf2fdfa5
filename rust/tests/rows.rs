//! The needed rows: exactly those that the library asks for.
use gauzespar::{lent::View, Coefficients, Progress, Record, Refusal, Table, WorldRadius};

#[path = "../../oracle/shared/numbers.rs"]
mod numbers;

use numbers::Rng;

fn table_of(record: Record, rows: impl IntoIterator<Item = usize>) -> Table {
    let mut table = Table::start(record).unwrap();
    rows.into_iter().for_each(|row| table.build(row).unwrap());
    table
}

/// A radius that lies inside the radius nodes in every channel.
fn inside(table: &Table, tint: Coefficients) -> WorldRadius {
    let last = table.radius_samples()[table.record().m - 1];
    let most = tint.sigma_t().into_iter().fold(1.0, f32::max);
    WorldRadius(0.5 * last / most)
}

/// By the library alone: a row is needed exactly if a table without that row is refused with 11.
fn asked_for(record: Record, tint: Coefficients) -> Vec<usize> {
    let whole = table_of(record, 0..record.n);
    let radius = inside(&whole, tint);
    assert!(whole.sr(tint, radius).is_ok());
    let missed = |row: &usize| {
        let lacking = table_of(record, (0..record.n).filter(|other| other != row));
        lacking.sr(tint, radius) == Err(Refusal::RowMissing)
    };
    (0..record.n).filter(missed).collect()
}

/// Absorption and scattering of a random channel, some clear, some of albedo 0 or 1.
fn channel(rng: &mut Rng) -> (f32, f32) {
    match rng.below(8) {
        0 => (0.0, 0.0),
        1 => (rng.unit() + 0.1, 0.0),
        2 => (0.0, rng.unit() + 0.1),
        3 => (-0.0, rng.unit() + 0.1),
        4 => (rng.scale(-3, 0), rng.scale(-3, 0)),
        _ => (rng.unit() * 0.2, rng.unit()),
    }
}

fn random_tint(rng: &mut Rng) -> Coefficients {
    let [red, green, blue] = std::array::from_fn(|_| channel(rng));
    Coefficients { sigma_a: [red.0, green.0, blue.0], sigma_s: [red.1, green.1, blue.1] }
}

#[test]
fn exactly_the_needed_rows() {
    let mut rng = Rng(1);
    let mut counts = std::collections::BTreeSet::new();
    for _ in 0..60 {
        let record = Record::new(rng.between(2, 24), rng.between(2, 4), 0.0, 1.41);
        let tint = random_tint(&mut rng);
        let needed = asked_for(record, tint);
        counts.insert(needed.len());
        let mut table = Table::start(record).unwrap();
        assert_eq!(table.needed_rows(tint), Ok(needed.clone()), "{record:?} {tint:?}");
        assert_eq!(table.missing_rows(tint), Ok(needed.clone()));
        assert_eq!(table.ensure_rows_for(tint), Ok(needed.clone()));
        assert_eq!(table.built_rows(), needed);
        let whole = table_of(record, 0..record.n);
        let radius = inside(&table, tint);
        assert_eq!(table.sr(tint, radius).unwrap().map(f32::to_bits), whole.sr(tint, radius).unwrap().map(f32::to_bits));
    }
    assert!(counts.len() >= 5, "too few kinds of tints: {counts:?}");
}

/// The albedo of node i needs row i alone.
#[test]
fn albedos_on_nodes() {
    let table = Table::start(Record::new(100, 2, 0.0, 1.33)).unwrap();
    let mut met = 0;
    for (row, albedo) in table.rho_samples().iter().enumerate() {
        let tint = Coefficients { sigma_a: [1.0 - albedo; 3], sigma_s: [*albedo; 3] };
        if tint.rho() == [*albedo; 3] {
            assert_eq!(table.needed_rows(tint), Ok(vec![row]));
            met += 1;
        }
    }
    assert!(met >= 90, "only {met} nodes were met");
}

#[test]
fn clear_and_whole_channels() {
    let table = Table::start(Record::new(20, 2, 0.0, 1.33)).unwrap();
    let needed = |sigma_a, sigma_s| table.needed_rows(Coefficients { sigma_a, sigma_s }).unwrap();
    assert_eq!(needed([0.0; 3], [0.0; 3]), [0]);
    assert_eq!(needed([2.0; 3], [0.0; 3]), [0]);
    assert_eq!(needed([0.0; 3], [2.0; 3]), [19]);
    assert_eq!(needed([0.0, 3.0, 0.0], [2.0, 0.0, 0.0]), [0, 19]);
}

/// On a caller's own nodes an albedo may lie outside, and then needs no row. Only the mark 1 says that a row is built.
#[test]
fn albedos_outside() {
    let record = Record::new(3, 2, 0.0, 1.33);
    let (nodes, radii, zeros) = ([0.25, 0.5, 0.75], [0.0, 1.0], [0.0; 6]);
    let view = View {
        rho_samples: &nodes,
        radius_samples: &radii,
        profile: &zeros,
        rho_eff: &zeros[..3],
        profile_cdf: &zeros,
        marks: &[255, 1, 2],
    };
    let tint = |albedos: [f32; 3]| Coefficients { sigma_a: albedos.map(|x| 1.0 - x), sigma_s: albedos };
    assert_eq!(view.needed_rows(record, tint([0.125, 0.875, 1.0])), Ok(vec![]));
    assert_eq!(view.sr(record, tint([0.125, 0.875, 1.0]), WorldRadius(0.5)), Ok([0.0; 3]));
    assert_eq!(view.needed_rows(record, tint([0.125, 0.5, 0.75])), Ok(vec![1, 2]));
    assert_eq!(view.missing_rows(record, tint([0.125, 0.5, 0.75])), Ok(vec![2]));
    assert_eq!([0, 1, 2, 3].map(|row| view.is_built(row)), [false, true, false, false]);
}

/// Rows that stand already are neither built again nor counted, and progress is told before and after each.
#[test]
fn progress() {
    let record = Record::new(12, 3, 0.0, 1.33);
    let tint = Coefficients { sigma_a: [0.3, 1.0, 0.0], sigma_s: [0.7, 0.0, 1.0] };
    let mut table = Table::start(record).unwrap();
    let needed = table.needed_rows(tint).unwrap();
    assert!(needed.len() >= 4);
    table.build(needed[1]).unwrap();
    let missing: Vec<usize> = needed.iter().copied().filter(|row| *row != needed[1]).collect();
    let mut told = Vec::new();
    assert_eq!(table.ensure_rows_with(tint, |progress| told.push(progress)), Ok(missing.clone()));
    let total = missing.len();
    let both = |(k, row): (usize, &usize)| [(*row, false, k, total), (*row, true, k + 1, total)];
    let expected: Vec<_> = missing.iter().enumerate().flat_map(both).collect();
    let told: Vec<_> = told.into_iter().map(|Progress { row, built, done, total }| (row, built, done, total)).collect();
    assert_eq!(told, expected);
    assert_eq!(table.built_rows(), needed);
    assert_eq!(table.ensure_rows_with(tint, |_| panic!("nothing is missing")), Ok(vec![]));
}
