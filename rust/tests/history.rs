//! Random lists of calls from two workstations against the plain tally of the specification, section 12.2, which keeps the record
//! and a set of rows.
use gauzespar::{Channel, Coefficients, Record, Refusal, Table, WorldRadius};
use std::collections::BTreeSet;

#[path = "shared/answers.rs"]
mod answers;
#[path = "shared/kept.rs"]
mod kept;
#[path = "../../oracle/shared/numbers.rs"]
mod numbers;

use answers::{all_bits, of_drawn, of_nothing, of_one, of_three, Answer};
use kept::Kept;
use numbers::{Rng, SPECIAL};

#[derive(Clone, Copy, Debug)]
enum Call {
    Build(usize),
    Sr(Coefficients, WorldRadius),
    PdfSr(Channel, Coefficients, WorldRadius),
    SampleSr(Channel, Coefficients, f32, u32),
}

/// A workstation: a record, and lists that it lends.
struct Workstation {
    record: Record,
    kept: Kept,
}

impl Workstation {
    /// Starts on lists of any contents.
    fn start(record: Record, rng: &mut Rng) -> Workstation {
        let marks = [0, 1, 2, 255];
        let mut others = Rng(rng.next());
        let mut kept = Kept::filled(record, || rng.any(), || marks[others.below(4)]);
        kept.lists().start(record).unwrap();
        Workstation { record, kept }
    }

    fn make(&mut self, call: Call) -> Answer {
        let record = self.record;
        match call {
            Call::Build(row) => of_nothing(self.kept.lists().build(record, row)),
            Call::Sr(tint, radius) => of_three(self.kept.view().sr(record, tint, radius)),
            Call::PdfSr(channel, tint, radius) => of_one(self.kept.view().pdf_sr(record, channel, tint, radius)),
            Call::SampleSr(channel, tint, u, allowance) => {
                of_drawn(self.kept.view().sample_sr(record, channel, tint, u, allowance))
            }
        }
    }

    fn is(&self, table: &Table) -> bool {
        let (own, other) = (self.kept.view(), table.view());
        all_bits(own.rho_samples) == all_bits(other.rho_samples)
            && all_bits(own.radius_samples) == all_bits(other.radius_samples)
            && all_bits(own.profile) == all_bits(other.profile)
            && all_bits(own.rho_eff) == all_bits(other.rho_eff)
            && all_bits(own.profile_cdf) == all_bits(other.profile_cdf)
            && own.marks == other.marks
    }
}

/// It sees no answer, no list and no mark.
struct Tally {
    record: Record,
    rows: BTreeSet<usize>,
}

impl Tally {
    /// A table built from just the rows of the set, on fresh lists.
    fn table(&self) -> Table {
        let mut table = Table::start(self.record).unwrap();
        self.rows.iter().for_each(|row| table.build(*row).unwrap());
        table
    }

    fn make(&mut self, call: Call) -> Answer {
        match call {
            Call::Build(row) if row >= self.record.n => Err(Refusal::RowNumber),
            Call::Build(row) => {
                self.rows.insert(row);
                Ok(Vec::new())
            }
            Call::Sr(tint, radius) => of_three(self.table().sr(tint, radius)),
            Call::PdfSr(channel, tint, radius) => of_one(self.table().pdf_sr(channel, tint, radius)),
            Call::SampleSr(channel, tint, u, allowance) => of_drawn(self.table().sample_sr(channel, tint, u, allowance)),
        }
    }
}

fn random_coefficient(rng: &mut Rng) -> f32 {
    match rng.below(60) {
        0 => rng.pick(&SPECIAL),
        1 => 1e30,
        2..=9 => 0.0,
        _ => rng.unit(),
    }
}

fn random_tint(rng: &mut Rng) -> Coefficients {
    let alike = rng.chance(50);
    let mut three = || {
        let first = random_coefficient(rng);
        [first; 3].map(|first| if alike { first } else { random_coefficient(rng) })
    };
    Coefficients { sigma_a: three(), sigma_s: three() }
}

fn random_radius(rng: &mut Rng) -> WorldRadius {
    WorldRadius(if rng.chance(15) { rng.any() } else { rng.unit() * rng.unit() * 0.02 })
}

fn random_call(record: Record, rng: &mut Rng) -> Call {
    let channel = Channel::ALL[rng.below(3)];
    let u = if rng.chance(10) { rng.any() } else { rng.unit() };
    let allowance = [0, 1, 2, 3, 10, 100, 1000, 1001][rng.below(8)];
    match rng.below(5) {
        0 => Call::Build(rng.below(record.n + 1)),
        1 => Call::PdfSr(channel, random_tint(rng), random_radius(rng)),
        2 => Call::SampleSr(channel, random_tint(rng), u, allowance),
        _ => Call::Sr(random_tint(rng), random_radius(rng)),
    }
}

/// A workstation with its tally, and the values given so far.
struct History {
    workstation: Workstation,
    tally: Tally,
    given: Vec<(Call, Answer)>,
    refused: BTreeSet<u32>,
}

impl History {
    fn start(record: Record, rng: &mut Rng) -> History {
        let tally = Tally { record, rows: BTreeSet::new() };
        History { workstation: Workstation::start(record, rng), tally, given: Vec::new(), refused: BTreeSet::new() }
    }

    /// Makes a call on both sides. A refused call leaves the lists as they were.
    fn make(&mut self, call: Call) {
        let before = self.workstation.kept.bytes();
        let answer = self.workstation.make(call);
        assert_eq!(answer, self.tally.make(call), "{call:?} with the rows {:?}", self.tally.rows);
        match answer {
            Ok(_) => self.given.push((call, answer)),
            Err(refusal) => {
                assert!(before == self.workstation.kept.bytes(), "{call:?} wrote");
                self.refused.insert(refusal.number());
            }
        }
    }

    fn finish_rows(&mut self, rows: &BTreeSet<usize>) {
        rows.iter().for_each(|row| self.make(Call::Build(*row)));
    }

    /// Whether all values that another workstation gave are given here.
    fn gives_again(&mut self, given: &[(Call, Answer)]) {
        for (call, answer) in given {
            assert_eq!(&self.workstation.make(*call), answer, "{call:?} is answered otherwise later on");
        }
    }
}

/// Two workstations with one record: calls of their own, in turns, then the rows of both on both.
fn two_workstations(rng: &mut Rng) -> [History; 2] {
    let record = Record::new(rng.between(2, 8), rng.between(2, 12), rng.within(-0.9, 0.9), rng.within(1.0, 2.0));
    let mut both = [History::start(record, rng), History::start(record, rng)];
    for _ in 0..60 {
        let at = rng.below(2);
        both[at].make(random_call(record, rng));
    }
    for history in &both {
        assert!(history.workstation.is(&history.tally.table()), "the lists are not the tally's");
    }
    let rows: BTreeSet<usize> = both[0].tally.rows.union(&both[1].tally.rows).copied().collect();
    let given = [both[0].given.clone(), both[1].given.clone()].concat();
    for history in &mut both {
        history.finish_rows(&rows);
        assert_eq!(history.tally.rows, rows);
        assert!(history.workstation.is(&history.tally.table()), "equal sets of rows, but other lists");
        history.gives_again(&given);
    }
    both
}

/// How many values above 0 a history gave, by `sr`, `pdf_sr` and `sample_sr`.
fn above_0(history: &History) -> [usize; 3] {
    let mut counts = [0; 3];
    for (call, answer) in &history.given {
        let first = answer.as_ref().ok().and_then(|values| values.first()).map_or(0.0, |bits| f32::from_bits(*bits));
        let kind = match call {
            Call::Build(_) => continue,
            Call::Sr(..) => 0,
            Call::PdfSr(..) => 1,
            Call::SampleSr(..) => 2,
        };
        counts[kind] += usize::from(first > 0.0);
    }
    counts
}

#[test]
fn two_workstations_and_their_tallies() {
    let mut rng = Rng(2);
    let histories: Vec<History> = (0..40).flat_map(|_| two_workstations(&mut rng)).collect();
    let refused: BTreeSet<u32> = histories.iter().flat_map(|history| history.refused.iter().copied()).collect();
    assert_eq!(Vec::from_iter(refused), [7, 8, 9, 10, 11, 12, 13]);
    for kind in 0..3 {
        let count: usize = histories.iter().map(|history| above_0(history)[kind]).sum();
        assert!(count >= 20, "only {count} values above 0 of kind {kind}");
    }
}
