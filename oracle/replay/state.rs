//! What a run keeps between lines, and its answers. From an accepted start on, as long as nothing else writes the lent lists, the
//! answers of builds and queries are those of the plain tally (specification, section 12.2).
use crate::calls::{self, Coefficients, Lists, Record};
use crate::own_calls;
use crate::protocol::{Call, OWN};
use crate::stand_ins;
use crate::store::{hash, same, same_floats, words, Store, Table};
use crate::tally::Tally;
use crate::writing::{kind, Kind, Line};
use std::fmt::{Display, Formatter};

/// What a call got, for the summary. A row that is built counts by what its profile is; a draw that makes no round counts by itself.
#[derive(Clone, Copy, PartialEq, Eq, PartialOrd, Ord)]
pub enum What {
    Ok,
    Bad,
    Shown,
    Done,
    Value(Kind),
    NoRound,
    Outside,
    Refused(u32),
}

impl Display for What {
    fn fmt(&self, f: &mut Formatter) -> std::fmt::Result {
        match self {
            What::Ok => write!(f, "ok"),
            What::Bad => write!(f, "bad"),
            What::Shown => write!(f, "shown"),
            What::Done => write!(f, "done"),
            What::Value(kind) => write!(f, "{}", kind),
            What::NoRound => write!(f, "no-round"),
            What::Outside => write!(f, "outside"),
            What::Refused(k) => write!(f, "r{}", k),
        }
    }
}

/// An answer's line, what it is, and the rounds in it.
pub struct Answer {
    pub line: Line,
    pub what: What,
    pub rounds: u32,
}

fn answer(line: Line, what: What) -> Answer {
    Answer { line, what, rounds: 0 }
}

fn ok() -> Answer {
    answer(Line::of("ok"), What::Ok)
}

pub fn bad() -> Answer {
    answer(Line::of("bad"), What::Bad)
}

fn values(floats: &[f32]) -> Answer {
    answer(Line::of("value").answers(floats), What::Value(kind(floats)))
}

fn shown_hash(lists: impl Iterator<Item = Vec<u32>>) -> Answer {
    answer(Line::of("hash").then(format_args!("{:016x}", hash(lists))), What::Shown)
}

/// Values and rounds.
fn drawn(floats: &[f32], rounds: u32) -> Answer {
    let what = if rounds == 0 { What::NoRound } else { What::Value(kind(floats)) };
    Answer { rounds, ..answer(Line::of("value").answers(floats).then(rounds), what) }
}

fn or_refused(outcome: Result<Answer, u32>) -> Answer {
    outcome.unwrap_or_else(|k| answer(Line::of("refused").then(k), What::Refused(k)))
}

/// The lists, and the tally since an accepted start.
pub struct State {
    pub store: Store,
    tally: Option<Tally>,
}

/// The record of a build or a query.
fn later_record(call: &Call) -> Option<&Record> {
    match call {
        Call::Build(r, _) | Call::Sr(r, ..) | Call::Pdf(r, ..) | Call::Draw(r, ..) => Some(r),
        _ => None,
    }
}

impl State {
    pub fn new() -> State {
        State { store: Store::new(), tally: None }
    }

    /// The tally, if the call is given its record.
    fn tally_of(&mut self, r: &Record) -> Option<&mut Tally> {
        self.tally.as_mut().filter(|tally| tally.has(r))
    }

    pub fn has_tally(&self) -> bool {
        self.tally.is_some()
    }

    /// Whether the tally answers a call.
    pub fn tallied(&mut self, call: &Call) -> bool {
        later_record(call).is_some_and(|r| self.tally_of(r).is_some())
    }

    fn start(&mut self, r: &Record) -> Result<Answer, u32> {
        calls::start(r, self.store.lists())?;
        self.tally = Some(Tally::new(*r));
        Ok(answer(Line::of("done"), What::Done))
    }

    fn build(&mut self, r: &Record, row: u32) -> Result<Answer, u32> {
        let built = calls::build(r, row, self.store.lists());
        if let Some(tally) = self.tally_of(r) {
            assert!(tally.build(row) == built, "the tally builds otherwise");
        } else if built.is_ok() {
            self.tally = None;
        }
        built?;
        let m = r.m as usize;
        let profile = &self.store.lists().profile[row as usize * m..][..m];
        Ok(answer(Line::of("done"), What::Value(kind(profile))))
    }

    /// The answer of a query on the tally's table, or on the lists.
    fn ask<T>(&mut self, r: &Record, query: impl Fn(&Lists) -> T) -> T {
        match self.tally_of(r) {
            Some(tally) => query(&tally.lists()),
            None => query(&self.store.lists()),
        }
    }

    fn sr(&mut self, r: &Record, c: &Coefficients, x: f32) -> Result<Answer, u32> {
        Ok(values(&self.ask(r, |lists| calls::sr(r, c, x, lists))?))
    }

    fn pdf(&mut self, r: &Record, c: &Coefficients, ch: usize, x: f32) -> Result<Answer, u32> {
        Ok(values(&[self.ask(r, |lists| calls::pdf_sr(r, c, ch, x, lists))?]))
    }

    fn draw(&mut self, r: &Record, c: &Coefficients, ch: usize, u: f32, allowance: u32) -> Result<Answer, u32> {
        let (radius, rounds) = self.ask(r, |lists| calls::sample_sr(r, c, ch, u, allowance, lists))?;
        Ok(drawn(&[radius], rounds))
    }

    fn weights(&mut self, x: f32) -> Result<Answer, u32> {
        let ([nodes, ..], _) = self.store.own();
        Ok(match own_calls::weights(nodes, x)? {
            Some((offset, weights)) => answer(Line::of("value").then(offset).answers(&weights), What::Value(kind(&weights))),
            None => answer(Line::of("outside"), What::Outside),
        })
    }

    /// A refusal has to leave the list as it was.
    fn integrate(&mut self) -> Result<Answer, u32> {
        let ([nodes, _, entries], cdf) = self.store.own();
        let before = cdf.to_vec();
        let sum = own_calls::integrate(nodes, entries, cdf);
        assert!(sum.is_ok() || same_floats(&before, cdf), "a refused integration wrote");
        Ok(values(&[sum?]))
    }

    fn sample_2d(&mut self, alpha: f32, u: f32, allowance: u32) -> Result<Answer, u32> {
        let (lists, cdf) = self.store.own();
        Ok(match own_calls::sample_2d(lists, cdf, alpha, u, allowance)? {
            Some(at) => drawn(&[at.position, at.value, at.density], at.rounds),
            None => answer(Line::of("outside").answers(&[0.0]).then(0), What::Outside),
        })
    }

    /// The tally's table, or the lists as they are.
    pub fn lists(&mut self) -> Lists<'_> {
        match &mut self.tally {
            Some(tally) => tally.lists(),
            None => self.store.lists(),
        }
    }

    fn words(&mut self, list: usize) -> Vec<u32> {
        if list < OWN {
            words(&self.lists(), list)
        } else {
            self.store.own_words(list)
        }
    }

    fn dump_all(&mut self) -> Answer {
        let lists = (0..OWN).map(|list| self.words(list));
        answer(lists.fold(Line::of("lists"), |line, words| line.then(words.len()).words(&words)), What::Shown)
    }

    fn show(&mut self, list: usize) -> Answer {
        let words = self.words(list);
        answer(Line::of("list").then(list).then(words.len()).words(&words), What::Shown)
    }

    /// What writes a lent list and is none of the offered calls ends the tally's turn.
    fn write(&mut self, list: usize, write: impl FnOnce(&mut Store)) -> Answer {
        if list < OWN {
            self.tally = None;
        }
        write(&mut self.store);
        ok()
    }

    pub fn answer(&mut self, call: &Call) -> Answer {
        match call {
            Call::Lens(lengths) if *lengths == self.store.lent_lengths() => ok(),
            Call::Lens(lengths) => self.write(0, |store| store.set_lengths(0, lengths)),
            Call::OwnLens(lengths) => self.write(OWN, |store| store.set_lengths(OWN, lengths)),
            Call::Put { list, at, words } => self.write(*list, |store| store.put(*list, *at, words)),
            Call::Fill { list, word } => self.write(*list, |store| store.fill(*list, *word)),
            Call::Dump => shown_hash((0..OWN).map(|list| self.words(list))),
            Call::OwnDump => shown_hash((OWN..OWN + 4).map(|list| self.words(list))),
            Call::List(list) => self.show(*list),
            Call::DumpAll => self.dump_all(),
            Call::Start(r) => or_refused(self.start(r)),
            Call::Build(r, row) => or_refused(self.build(r, *row)),
            Call::Sr(r, c, x) => or_refused(self.sr(r, c, *x)),
            Call::Pdf(r, c, ch, x) => or_refused(self.pdf(r, c, *ch, *x)),
            Call::Draw(r, c, ch, u, allowance) => or_refused(self.draw(r, c, *ch, *u, *allowance)),
            Call::Sw(eta, cosine) => or_refused(calls::sw(*eta, *cosine).map(|term| values(&term))),
            Call::Weights(x) => or_refused(self.weights(*x)),
            Call::Integrate => or_refused(self.integrate()),
            Call::Sample2d(alpha, u, allowance) => or_refused(self.sample_2d(*alpha, *u, *allowance)),
            Call::Q(x) => values(&[stand_ins::root(*x)]),
            Call::E(x) => values(&[stand_ins::exp(*x)]),
            Call::L(x) => values(&[stand_ins::ln(*x)]),
        }
    }

    /// The answer. A start or a build that is refused has to leave the lists as they were, and the tally's table has to be what the
    /// lists hold after one that is not. The queries are lent lists that they cannot write.
    pub fn checked(&mut self, call: &Call) -> Answer {
        if !matches!(call, Call::Start(_) | Call::Build(..)) {
            return self.answer(call);
        }
        let mut before = Table::of(&self.store.lists());
        let answer = self.answer(call);
        let refused = matches!(answer.what, What::Refused(_));
        assert!(!refused || same(&before.lists(), &self.store.lists()), "a refused call wrote");
        if let Some(tally) = &mut self.tally {
            assert!(same(&tally.lists(), &self.store.lists()), "the tally's table is another");
        }
        answer
    }
}
