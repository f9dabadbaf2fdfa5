//! Lists of any lengths and contents. Each call is made on lists between guards, which must stay as they were, and on lists that
//! each fill an allocation of their own, where valgrind sees a step past an end; both must answer and write alike.
use gauzespar::lent::{Lists, View};
use gauzespar::spline::{integrate, sample_2d, weights};
use gauzespar::{sw, Channel, Coefficients, Record, Refusal, Table, WorldRadius};
use std::collections::BTreeMap;
use std::process::Command;

#[path = "shared/answers.rs"]
mod answers;
#[path = "shared/kept.rs"]
mod kept;
#[path = "../../oracle/shared/numbers.rs"]
mod numbers;
#[path = "shared/skip.rs"]
mod skip;

use answers::{of_drawn, of_nothing, of_one, of_rows, of_sample, of_three, of_weights, Answer};
use kept::{lengths, Kept};
use numbers::Rng;
use skip::skip;

/// How many elements guard each end of a list.
const GUARD: usize = 64;

/// A list between guards.
struct Guarded<T> {
    all: Vec<T>,
}

impl<T: Copy> Guarded<T> {
    fn new(list: &[T], guard: T) -> Guarded<T> {
        let guards = [guard; GUARD];
        Guarded { all: [&guards, list, &guards].concat() }
    }

    fn list(&self) -> &[T] {
        &self.all[GUARD..self.all.len() - GUARD]
    }

    fn list_mut(&mut self) -> &mut [T] {
        let end = self.all.len() - GUARD;
        &mut self.all[GUARD..end]
    }

    fn is_guarded(&self, mut intact: impl FnMut(T) -> bool) -> bool {
        let end = self.all.len() - GUARD;
        self.all[..GUARD].iter().chain(&self.all[end..]).all(|x| intact(*x))
    }
}

/// A NaN of bits that no call writes.
const FLOAT_GUARD: u32 = 0xffa5a5a5;
const MARK_GUARD: u8 = 0xa5;

fn guarded(list: &[f32]) -> Guarded<f32> {
    Guarded::new(list, f32::from_bits(FLOAT_GUARD))
}

/// The six lists between guards.
struct GuardedLists {
    floats: [Guarded<f32>; 5],
    marks: Guarded<u8>,
}

impl GuardedLists {
    fn new(kept: &Kept) -> GuardedLists {
        GuardedLists { floats: kept.floats.each_ref().map(|list| guarded(list)), marks: Guarded::new(&kept.marks, MARK_GUARD) }
    }

    fn lists(&mut self) -> Lists<'_> {
        let [rho_samples, radius_samples, profile, rho_eff, profile_cdf] = self.floats.each_mut().map(Guarded::list_mut);
        Lists { rho_samples, radius_samples, profile, rho_eff, profile_cdf, marks: self.marks.list_mut() }
    }

    /// The lists without their guards, which must be as they were.
    fn kept(&self) -> Kept {
        assert!(self.floats.iter().all(|list| list.is_guarded(|x| x.to_bits() == FLOAT_GUARD)), "a guard was written");
        assert!(self.marks.is_guarded(|mark| mark == MARK_GUARD), "a guard of the marks was written");
        Kept { floats: self.floats.each_ref().map(|list| list.list().to_vec()), marks: self.marks.list().to_vec() }
    }
}

/// What a call on a table is asked with.
#[derive(Debug)]
struct Asked {
    record: Record,
    row: usize,
    channel: Channel,
    tint: Coefficients,
    radius: WorldRadius,
    u: f32,
    allowance: u32,
}

type TableCall = (&'static str, fn(&mut Lists, &Asked) -> Answer);

const TABLE_CALLS: [TableCall; 6] = [
    ("start", |lists, asked| of_nothing(lists.start(asked.record))),
    ("build", |lists, asked| of_nothing(lists.build(asked.record, asked.row))),
    ("sr", |lists, asked| of_three(lists.view().sr(asked.record, asked.tint, asked.radius))),
    ("pdf_sr", |lists, asked| of_one(lists.view().pdf_sr(asked.record, asked.channel, asked.tint, asked.radius))),
    ("sample_sr", |lists, asked| {
        of_drawn(lists.view().sample_sr(asked.record, asked.channel, asked.tint, asked.u, asked.allowance))
    }),
    ("needed_rows", |lists, asked| of_rows(lists.view().needed_rows(asked.record, asked.tint))),
];

/// Counts how often each call was answered, and refused.
#[derive(Default)]
struct Counts(BTreeMap<(&'static str, u32), usize>);

impl Counts {
    fn add(&mut self, call: &'static str, answer: &Answer) {
        let number = answer.as_ref().err().map_or(0, |refusal| refusal.number());
        *self.0.entry((call, number)).or_default() += 1;
    }

    /// Requires that a call was answered, and refused with each of these numbers.
    fn require(&self, call: &'static str, numbers: &[u32]) {
        for number in [0].iter().chain(numbers) {
            assert!(self.0.contains_key(&(call, *number)), "{call} never gave {number}: {:?}", self.0);
        }
    }
}

fn size(rng: &mut Rng, most: usize) -> usize {
    match rng.below(20) {
        0 => rng.below(2),
        1 => most + rng.below(3),
        2 => most,
        _ => rng.between(2, 6),
    }
}

fn random_record(rng: &mut Rng) -> Record {
    let (n, m) = (size(rng, Record::MAX_ROWS), size(rng, Record::MAX_RADII));
    let g = if rng.chance(5) { rng.any() } else { rng.within(-0.9, 0.9) };
    let eta = if rng.chance(5) { rng.any() } else { rng.within(1.0, 2.0) };
    Record { n, m, g, eta }
}

fn random_asked(rng: &mut Rng, record: Record) -> Asked {
    let mut coefficient = || if rng.chance(4) { rng.any() } else { rng.unit() };
    let tint = Coefficients { sigma_a: std::array::from_fn(|_| coefficient()), sigma_s: std::array::from_fn(|_| coefficient()) };
    Asked {
        record,
        row: rng.below(record.n + 1),
        channel: Channel::ALL[rng.below(3)],
        tint,
        radius: WorldRadius(if rng.chance(20) { rng.any() } else { rng.unit() * 0.01 }),
        u: if rng.chance(10) { rng.any() } else { rng.unit() },
        allowance: [0, 1, 3, 30, 1000, 1001][rng.below(6)],
    }
}

/// Increasing nodes, from one that may be far off.
fn increasing(rng: &mut Rng, count: usize) -> Vec<f32> {
    let mut last = if rng.chance(20) { rng.any() } else { 0.0 };
    let scale = rng.scale(-6, 3);
    let mut next = || {
        let node = last;
        last += scale * (rng.unit() + 0.1);
        node
    };
    (0..count).map(|_| next()).collect()
}

/// Lists for a record: mostly of its lengths, and mostly with increasing nodes.
fn random_kept(rng: &mut Rng, record: Record) -> Kept {
    let ([mut n, mut m, ..], _) = lengths(record);
    if rng.chance(5) {
        (n, m) = (rng.below(9), rng.below(9));
    }
    let mut others = Rng(rng.next());
    let mut kept = Kept::filled(Record { n, m, ..record }, || rng.any(), || [0, 1, 1, 1, 1, 1, 2, 255][others.below(8)]);
    match rng.below(10) {
        0 => (),
        1..=4 => (kept.floats[0], kept.floats[1]) = (increasing(rng, n), increasing(rng, m)),
        _ => start_nodes(&mut kept),
    }
    if rng.chance(5) {
        let list = rng.below(5);
        kept.floats[list].truncate(rng.below(9));
    }
    kept
}

/// Sets the nodes of starting, where the lists are a table's.
fn start_nodes(kept: &mut Kept) {
    if let Ok(table) = Table::start(Record::new(kept.floats[0].len(), kept.floats[1].len(), 0.0, 1.5)) {
        kept.floats[0].copy_from_slice(table.rho_samples());
        kept.floats[1].copy_from_slice(table.radius_samples());
    }
}

/// Where the lists differ from what they were: list and place.
fn changes(before: &Kept, after: &Kept) -> Vec<(usize, usize)> {
    let mut places = Vec::new();
    for (list, (old, new)) in before.floats.iter().zip(&after.floats).enumerate() {
        places.extend((0..old.len()).filter(|at| old[*at].to_bits() != new[*at].to_bits()).map(|at| (list, at)));
    }
    places.extend((0..before.marks.len()).filter(|at| before.marks[*at] != after.marks[*at]).map(|at| (5, at)));
    places
}

/// Whether a place belongs to a row.
fn is_of_row(record: Record, row: usize, (list, at): (usize, usize)) -> bool {
    match list {
        2 | 4 => at / record.m == row,
        3 | 5 => at == row,
        _ => false,
    }
}

fn try_table_call((name, call): TableCall, asked: &Asked, kept: &Kept, counts: &mut Counts) {
    let (mut fenced, mut alone) = (GuardedLists::new(kept), kept.clone());
    let answer = call(&mut fenced.lists(), asked);
    let after = fenced.kept();
    assert_eq!(call(&mut alone.lists(), asked), answer, "{name} {asked:?}");
    assert!(after.bytes() == alone.bytes(), "{name} {asked:?} wrote otherwise the second time");
    let changed = changes(kept, &after);
    match name {
        _ if answer.is_err() => assert!(changed.is_empty(), "{name} {asked:?} wrote though it was refused"),
        "start" => (),
        "build" => assert!(changed.iter().all(|place| is_of_row(asked.record, asked.row, *place)), "{asked:?} {changed:?}"),
        _ => assert!(changed.is_empty(), "{name} {asked:?} wrote"),
    }
    counts.add(name, &answer);
}

fn try_splines(rng: &mut Rng, counts: &mut Counts) {
    let (n, m) = (size(rng, Record::MAX_ROWS), size(rng, Record::MAX_RADII));
    let nodes =
        |rng: &mut Rng, count| if rng.chance(10) { (0..count).map(|_| rng.any()).collect() } else { increasing(rng, count) };
    let (first, second) = (nodes(rng, n), nodes(rng, m));
    let length = |rng: &mut Rng, right: usize| if rng.chance(10) { rng.below(9) } else { right };
    let list = |rng: &mut Rng, count: usize| -> Vec<f32> { (0..count).map(|_| rng.any()).collect() };
    let (values_length, cdf_length) = (length(rng, n * m), length(rng, n * m));
    let (values, cdf) = (list(rng, values_length), list(rng, cdf_length));
    let x = if n > 0 && rng.chance(80) { first[0] + rng.unit() * (first[n - 1] - first[0]) } else { rng.any() };
    let (u, allowance) = (if rng.chance(10) { rng.any() } else { rng.unit() }, [0, 1, 30, 1000, 1001][rng.below(5)]);
    counts.add("weights", &of_weights(weights(&first, x)));
    counts.add("sample_2d", &of_sample(sample_2d(&first, &second, &values, &cdf, x, u, allowance)));
    counts.add("sw", &of_three(sw(if rng.chance(50) { rng.any() } else { 1.5 }, rng.any())));
    let (row_length, sum_length) = (length(rng, n), length(rng, n));
    try_integral(&first, &list(rng, row_length), &list(rng, sum_length), counts);
}

fn try_integral(nodes: &[f32], values: &[f32], before: &[f32], counts: &mut Counts) {
    let (mut fenced, mut alone) = (guarded(before), before.to_vec());
    let answer = of_one(integrate(nodes, values, fenced.list_mut()));
    assert_eq!(of_one(integrate(nodes, values, &mut alone)), answer);
    let same = |one: &[f32], other: &[f32]| one.iter().map(|x| x.to_bits()).eq(other.iter().map(|x| x.to_bits()));
    assert!(fenced.is_guarded(|x| x.to_bits() == FLOAT_GUARD) && same(fenced.list(), &alone));
    assert!(answer.is_ok() || same(&alone, before), "a refused integral wrote");
    counts.add("integrate", &answer);
}

/// An own number of cases for valgrind, under which each takes longer.
const CASES: &str = "GAUZESPAR_HOSTILE_CASES";

#[test]
fn hostile_lists() {
    let cases = std::env::var(CASES).ok().and_then(|count| count.parse().ok()).unwrap_or(3000);
    let (mut rng, mut counts) = (Rng(3), Counts::default());
    for _ in 0..cases {
        let record = random_record(&mut rng);
        let (asked, kept) = (random_asked(&mut rng, record), random_kept(&mut rng, record));
        for call in TABLE_CALLS {
            try_table_call(call, &asked, &kept, &mut counts);
        }
        try_splines(&mut rng, &mut counts);
    }
    counts.require("start", &[1, 2, 3, 4, 5]);
    counts.require("build", &[1, 2, 3, 4, 5, 6, 7]);
    counts.require("sr", &[1, 2, 3, 4, 5, 6, 8, 11, 12]);
    counts.require("pdf_sr", &[1, 2, 3, 4, 5, 6, 8, 11]);
    counts.require("sample_sr", &[1, 2, 3, 4, 5, 6, 8, 9, 10, 11, 13]);
    counts.require("needed_rows", &[1, 2, 3, 4, 5, 6, 8]);
    counts.require("weights", &[1, 6]);
    counts.require("integrate", &[1, 5, 6]);
    counts.require("sample_2d", &[1, 2, 5, 6, 9, 10, 13]);
    counts.require("sw", &[4, 9]);
}

/// Empty lists have no place to read or write.
#[test]
fn empty_lists() {
    let record = Record::new(2, 2, 0.0, 1.5);
    let tint = Coefficients { sigma_a: [1.0; 3], sigma_s: [1.0; 3] };
    assert_eq!(Lists::default().start(record), Err(Refusal::Length));
    assert_eq!(Lists::default().build(record, 0), Err(Refusal::Length));
    assert_eq!(View::default().sr(record, tint, WorldRadius(0.0)), Err(Refusal::Length));
    assert_eq!(View::default().pdf_sr(record, Channel::Red, tint, WorldRadius(0.0)), Err(Refusal::Length));
    assert_eq!(View::default().sample_sr(record, Channel::Red, tint, 0.5, 1), Err(Refusal::Length));
    assert_eq!(weights(&[], 0.0), Err(Refusal::Rows));
    assert_eq!(integrate(&[], &[], &mut []), Err(Refusal::Rows));
    assert_eq!(sample_2d(&[], &[], &[], &[], 0.0, 0.5, 1), Err(Refusal::Rows));
}

/// The hostile lists once more, under valgrind: every read and write lies in a list, and nothing depends on memory that was never
/// written.
#[test]
fn hostile_lists_under_valgrind() {
    if Command::new("valgrind").arg("--version").output().is_err() {
        skip("valgrind is not installed");
        return;
    }
    let run = Command::new("valgrind")
        .args(["--quiet", "--error-exitcode=99", "--redzone-size=1024"])
        .arg(std::env::current_exe().unwrap())
        .args(["--exact", "hostile_lists", "--test-threads=1"])
        .env(CASES, "300")
        .output()
        .unwrap();
    let wrote = String::from_utf8_lossy(&run.stderr);
    assert!(run.status.success(), "{}\n{wrote}\n{}", run.status, String::from_utf8_lossy(&run.stdout));
    assert!(String::from_utf8_lossy(&run.stdout).contains("1 passed"), "the test did not run under valgrind");
}
