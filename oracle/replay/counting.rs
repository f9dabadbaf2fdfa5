//! A run of lines, and what is counted of it.
use crate::calls::watched;
use crate::cover::Cover;
use crate::malformed::{EDITS, LINES};
use crate::protocol::{name, parse, OFFERED, OTHERS};
use crate::state::{bad, State, What};
use crate::writing::{row, Line, Tally};
use std::collections::BTreeMap;
use std::fmt::{Display, Formatter};

/// What a line got: the name of its call, if it is one, and the answer's kind.
#[derive(Clone, Copy, PartialEq, Eq, PartialOrd, Ord)]
pub struct Got(&'static str, What);

impl Display for Got {
    fn fmt(&self, f: &mut Formatter) -> std::fmt::Result {
        write!(f, "{}:{}", self.0, self.1)
    }
}

#[derive(Default)]
pub struct Counts {
    pub lines: usize,
    /// The offered calls among them, with Q, E and L.
    pub calls: usize,
    /// Those of them that ran functions of rs_pbrt.
    pub ran: usize,
    /// The builds and queries that the tally answered.
    pub tallied: usize,
    /// What the lines of each class got.
    pub classes: Tally<Got>,
    pub cover: Cover,
}

impl Counts {
    pub fn add(&mut self, other: Counts) {
        self.lines += other.lines;
        self.calls += other.calls;
        self.ran += other.ran;
        self.tallied += other.tallied;
        for (class, answers) in other.classes {
            let sums = self.classes.entry(class).or_default();
            answers.into_iter().for_each(|(got, count)| *sums.entry(got).or_insert(0) += count);
        }
        self.cover.add(other.cover);
    }

    /// What each call got.
    fn by_call(&self) -> Tally<What> {
        let mut calls: Tally<What> = BTreeMap::new();
        for (Got(call, what), count) in self.classes.values().flatten() {
            *calls.entry(call).or_default().entry(*what).or_insert(0) += count;
        }
        calls
    }

    fn of_class(&self, class: &str) -> usize {
        self.classes.get(class).map_or(0, |answers| answers.values().sum())
    }

    /// The calls that were not made, and their refusals that were not given.
    fn missing_calls(&self) -> Vec<String> {
        let calls = self.by_call();
        let got = |call: &str, k: u32| calls.get(call).is_some_and(|answers| answers.contains_key(&What::Refused(k)));
        let names = OTHERS.into_iter().chain(OFFERED.map(|(call, _)| call));
        let refusals = OFFERED.iter().flat_map(|(call, numbers)| numbers.iter().map(move |k| (*call, *k)));
        let unmade = names.filter(|call| !calls.contains_key(call)).map(str::to_string);
        unmade.chain(refusals.filter(|(call, k)| !got(call, *k)).map(|(call, k)| format!("{} refused {}", call, k))).collect()
    }

    /// The calls by what they got, the classes of calls, and those of which there was none.
    pub fn summary(&self) -> String {
        let mut lines: Vec<String> = self.by_call().iter().map(|(call, answers)| row(call, answers)).collect();
        let forms = EDITS.into_iter().chain(LINES).map(|form| (form, self.of_class(form)));
        let counts: Vec<String> = forms.clone().map(|(form, count)| format!("{} {}", form, count)).collect();
        lines.push("classes of calls:".to_string());
        lines.extend(self.cover.lines());
        lines.push(format!("forms of lines: {}", counts.join(", ")));
        let mut missing = [self.missing_calls(), self.cover.missing()].concat();
        missing.extend(forms.filter(|(_, count)| *count == 0).map(|(form, _)| form.to_string()));
        lines.push(format!("not covered: {}", if missing.is_empty() { "none".to_string() } else { missing.join("; ") }));
        lines.join("\n")
    }
}

pub struct Run {
    state: State,
    pub counts: Counts,
}

impl Run {
    pub fn new() -> Run {
        Run { state: State::new(), counts: Counts::default() }
    }

    /// The answer to a line of a class.
    pub fn line(&mut self, class: &'static str, text: &[u8]) -> Line {
        let (Run { state, counts }, call) = (self, parse(text));
        let (name, answer) = match &call {
            Some(call) => {
                counts.tallied += state.tallied(call) as usize;
                let before = counts.cover.before(call, state);
                let (answer, ran) = watched(|| state.checked(call));
                counts.ran += ran as usize;
                counts.cover.after(call, &before, &answer, state);
                (name(call), answer)
            }
            None => ("no call", bad()),
        };
        counts.lines += 1;
        counts.calls += OFFERED.iter().any(|(offered, _)| *offered == name) as usize;
        *counts.classes.entry(class).or_default().entry(Got(name, answer.what)).or_insert(0) += 1;
        answer.line
    }
}
