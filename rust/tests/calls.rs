//! Every call, with values known from elsewhere.
use gauzespar::spline::{integrate, sample_2d, weights, Sample, Weights};
use gauzespar::{sw, Channel, Coefficients, Drawn, Record, Refusal, Table, WorldRadius};

const ALIKE: fn(f32, f32) -> Coefficients = |sigma_a, sigma_s| Coefficients { sigma_a: [sigma_a; 3], sigma_s: [sigma_s; 3] };

fn bits<const K: usize>(list: [f32; K]) -> [u32; K] {
    list.map(f32::to_bits)
}

/// The table of the README.
fn readme_table() -> Table {
    Table::start(Record::new(100, 64, 0.0, 1.33)).expect("the record is in range")
}

fn readme_tint() -> Coefficients {
    Coefficients { sigma_a: [0.032, 0.17, 0.48], sigma_s: [0.74, 0.88, 1.01] }
}

#[test]
fn starting_sets_nodes_and_zeroes_the_rest() {
    let table = readme_table();
    let mut radius = 0.0025f32;
    assert_eq!(table.radius_samples()[0].to_bits(), 0);
    for node in &table.radius_samples()[1..] {
        assert_eq!(node.to_bits(), radius.to_bits());
        radius *= 1.2;
    }
    let albedos = table.rho_samples();
    assert_eq!(bits([albedos[0], albedos[50], albedos[99]]), bits([0.0, 0.9827393, 1.0]));
    let lists = [table.profile(), table.rho_eff(), table.profile_cdf()];
    assert_eq!(lists.map(<[f32]>::len), [6400, 100, 6400]);
    assert!(lists.concat().iter().all(|x| x.to_bits() == 0));
    assert_eq!(table.marks(), [0; 100]);
    assert_eq!((table.built_rows(), table.record()), (vec![], Record::new(100, 64, 0.0, 1.33)));
}

#[test]
fn building_a_row_writes_that_row() {
    let mut table = readme_table();
    table.build(50).unwrap();
    assert_eq!(table.rho_eff()[50].to_bits(), 0.59250236f32.to_bits());
    let cdf = &table.profile_cdf()[50 * 64..][..64];
    assert_eq!(bits([cdf[0], cdf[63]]), bits([0.0, 0.59250236]));
    assert!(table.profile()[50 * 64 + 1..][..63].iter().all(|x| *x > 0.0));
    let written =
        |list: &[f32]| list.iter().enumerate().filter(|(_, x)| x.to_bits() != 0).map(|(at, _)| at / 64).collect::<Vec<_>>();
    assert_eq!(written(table.profile()), [50; 63]);
    assert_eq!(written(table.profile_cdf()), [50; 63]);
    assert_eq!(table.rho_eff().iter().filter(|x| x.to_bits() != 0).count(), 1);
    assert_eq!(table.built_rows(), [50]);
    assert!(table.is_built(50) && !table.is_built(49) && !table.is_built(100));
    assert_eq!(table.build(100), Err(Refusal::RowNumber));
}

#[test]
fn the_tint_of_the_readme() {
    let mut table = readme_table();
    let at = WorldRadius(1.0);
    let radiance = [0.015957786, 0.010558161, 0.004966334];
    assert_eq!(table.needed_rows(readme_tint()).unwrap(), [13, 14, 15, 16, 21, 22, 23, 24, 38, 39, 40, 41]);
    table.ensure_rows_for(readme_tint()).unwrap();
    assert_eq!(bits(table.sr(readme_tint(), at).unwrap()), bits(radiance));
    let drawn = table.sample_sr(Channel::Red, readme_tint(), 0.5, 2).unwrap();
    assert_eq!(drawn, Drawn { radius: WorldRadius(1.9426361), rounds: 2 });
    (0..100).for_each(|row| table.build(row).unwrap());
    assert_eq!(bits(table.sr(readme_tint(), at).unwrap()), bits(radiance));
}

/// Three rows, of which only row 2 is built: albedo 1 needs that alone, and albedo 0.5 needs all.
#[test]
fn only_row_2_of_three() {
    let mut table = Table::start(Record::new(3, 2, 0.0, 1.33)).unwrap();
    table.build(2).unwrap();
    let (one, half, at) = (ALIKE(0.0, 1.0), ALIKE(1.0, 1.0), WorldRadius(0.001));
    assert_eq!(table.pdf_sr(Channel::Red, one, at).map(f32::to_bits), Ok(0x4746f195));
    assert!(table.sr(one, at).unwrap().iter().all(|x| *x > 0.0));
    assert!(table.sample_sr(Channel::Blue, one, 0.5, 1000).is_ok());
    assert_eq!(table.sr(half, at), Err(Refusal::RowMissing));
    for channel in Channel::ALL {
        assert_eq!(table.pdf_sr(channel, half, at), Err(Refusal::RowMissing));
        assert_eq!(table.sample_sr(channel, half, 0.5, 1000), Err(Refusal::RowMissing));
    }
    assert_eq!(table.missing_rows(half).unwrap(), [0, 1]);
}

/// Each channel has its own coefficients, and `pdf_sr` and `sample_sr` are asked in the channel that is named.
#[test]
fn channels_in_their_order() {
    let mut table = Table::start(Record::new(5, 8, 0.0, 1.33)).unwrap();
    (0..5).for_each(|row| table.build(row).unwrap());
    let tint = Coefficients { sigma_a: [0.1, 0.2, 0.3], sigma_s: [0.9, 0.5, 0.1] };
    let at = WorldRadius(0.002);
    let mixed = table.sr(tint, at).unwrap();
    for (k, channel) in Channel::ALL.into_iter().enumerate() {
        let alike = ALIKE(tint.sigma_a[k], tint.sigma_s[k]);
        assert_eq!(table.sr(alike, at).unwrap()[k].to_bits(), mixed[k].to_bits());
        let (density, drawn) = (table.pdf_sr(channel, tint, at).unwrap(), table.sample_sr(channel, tint, 0.5, 99).unwrap());
        assert_eq!(table.pdf_sr(Channel::Red, alike, at).unwrap().to_bits(), density.to_bits());
        assert_eq!(table.sample_sr(Channel::Red, alike, 0.5, 99).unwrap(), drawn);
    }
    assert!(mixed[0] != mixed[1] && mixed[1] != mixed[2]);
}

#[test]
fn outside_answers_0() {
    let table = Table::start(Record::new(3, 2, 0.0, 1.33)).unwrap();
    for radius in [-1.0, 0.003, f32::INFINITY, f32::NAN].map(WorldRadius) {
        assert_eq!(table.sr(ALIKE(1.0, 1.0), radius).map(bits), Ok([0; 3]));
        assert_eq!(table.pdf_sr(Channel::Green, ALIKE(1.0, 1.0), radius).map(f32::to_bits), Ok(0));
    }
}

#[test]
fn a_clear_channel_draws_minus_1() {
    let table = Table::start(Record::new(3, 2, 0.0, 1.33)).unwrap();
    let clear = Coefficients { sigma_a: [1.0, 0.0, 1.0], sigma_s: [1.0, 0.0, 1.0] };
    assert_eq!(table.sample_sr(Channel::Green, clear, 0.5, 1), Ok(Drawn { radius: WorldRadius(-1.0), rounds: 0 }));
    assert_eq!(table.sample_sr(Channel::Red, clear, 0.5, 1), Err(Refusal::RowMissing));
}

/// The sum 2^24 + 1 rounds to 2^24 before it divides.
#[test]
fn sums_and_albedos_round_once() {
    let tint = Coefficients { sigma_a: [16777216.0, 0.0, 3.0], sigma_s: [1.0, 0.0, 1.0] };
    assert_eq!(bits(tint.sigma_t()), bits([16777216.0, 0.0, 4.0]));
    assert_eq!(bits(tint.rho()), bits([1.0 / 16777216.0, 0.0, 0.25]));
}

#[test]
fn the_fresnel_term() {
    assert_eq!(sw(1.33, 1.0).map(bits), Ok(bits([0.3339359; 3])));
    assert_eq!(sw(0.9, 1.0), Err(Refusal::RefractiveIndex));
}

/// The weights of the specification, section 13.2.
#[test]
fn known_weights() {
    let at = |nodes: &[f32], x: f32| weights(nodes, x).unwrap().map(|w| (w.offset, bits(w.weights)));
    let three = [0.0, 1.0, 2.0];
    assert_eq!(at(&three, 0.0), Some((-1, bits([0.0, 1.0, 0.0, 0.0]))));
    assert_eq!(at(&three, 1.0), Some((0, bits([-0.0, 1.0, 0.0, 0.0]))));
    assert_eq!(at(&three, 2.0), Some((0, bits([-0.0, 0.0, 1.0, 0.0]))));
    assert_eq!(at(&three, 0.5), Some((-1, bits([0.0, 0.4375, 0.625, -0.0625]))));
    assert_eq!(at(&three, 1.5), Some((0, bits([-0.0625, 0.625, 0.4375, 0.0]))));
    assert_eq!(at(&[0.0, 1.0], 0.5), Some((-1, bits([0.0, 0.5, 0.5, 0.0]))));
    for x in [2.5, -0.5, f32::NAN, f32::INFINITY] {
        assert_eq!(weights(&three, x), Ok(None));
    }
}

/// A zero weight, of either sign, belongs to no needed node.
#[test]
fn nodes_of_nonzero_weight() {
    let nodes = |offset, weights| Weights { offset, weights }.nodes().collect::<Vec<_>>();
    assert_eq!(nodes(-1, [0.0, 0.4375, 0.625, -0.0625]), [0, 1, 2]);
    assert_eq!(nodes(0, [-0.0, 1.0, 0.0, 0.0]), [1]);
    assert_eq!(nodes(7, [1e-45, 0.5, 0.5, -1e-45]), [7, 8, 9, 10]);
}

#[test]
fn a_known_integral() {
    let mut cdf = [9.0; 3];
    assert_eq!(integrate(&[0.0, 1.0, 2.0], &[0.0, 2.0, 4.0], &mut cdf), Ok(4.0));
    assert_eq!(bits(cdf), bits([0.0, 1.0, 4.0]));
}

#[test]
fn known_samples() {
    let (rows, radii, cdf) = ([0.0, 1.0], [0.0, 1.0, 2.0], [0.0, 1.0, 2.0, 0.0, 0.0, 0.0]);
    let ones = [1.0, 1.0, 1.0, 0.0, 0.0, 0.0];
    let one_round = Sample { position: 1.5, value: 1.0, density: 0.5, rounds: 1 };
    assert_eq!(sample_2d(&rows, &radii, &ones, &cdf, 0.0, 0.75, 1), Ok(Some(one_round)));
    let zeros = [0.0; 6];
    assert_eq!(sample_2d(&rows, &radii, &zeros, &cdf, 0.0, 0.75, 20), Err(Refusal::Exhausted));
    let sample = sample_2d(&rows, &radii, &zeros, &cdf, 0.0, 0.75, 21).unwrap().unwrap();
    assert_eq!((sample.position, sample.rounds), (2.0 - 0.5f32.powi(21), 21));
    for alpha in [-0.5, 1.5, f32::NAN] {
        assert_eq!(sample_2d(&rows, &radii, &ones, &cdf, alpha, 0.75, 1), Ok(None));
    }
}

#[test]
fn same_tables() {
    let record = Record::new(4, 3, 0.0, 1.5);
    let start = |record| Table::start(record).unwrap();
    let (mut one, mut other) = (start(record), start(record));
    [1, 3].into_iter().for_each(|row| one.build(row).unwrap());
    [3, 1, 3].into_iter().for_each(|row| other.build(row).unwrap());
    assert!(one.same_as(&other) && one.clone().same_as(&other));
    other.build(0).unwrap();
    assert!(!one.same_as(&other));
    assert!(!start(record).same_as(&start(Record { g: 0.5, ..record })));
    assert!(!start(record).same_as(&start(Record { eta: 1.25, ..record })));
}

#[test]
fn threads_share_a_table() {
    fn shareable<T: Send + Sync>(_: &T) {}
    let mut table = Table::start(Record::new(10, 16, 0.0, 1.33)).unwrap();
    (0..10).for_each(|row| table.build(row).unwrap());
    shareable(&table);
    let ask = |k: usize| table.sr(ALIKE(0.01 * k as f32, 1.0), WorldRadius(0.01)).map(bits);
    let alone: Vec<_> = (0..400).map(ask).collect();
    std::thread::scope(|scope| {
        let others: Vec<_> = (0..4).map(|_| scope.spawn(|| (0..400).map(ask).collect::<Vec<_>>())).collect();
        others.into_iter().for_each(|other| assert_eq!(other.join().unwrap(), alone));
    });
}
