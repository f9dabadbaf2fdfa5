//! Writes cases and answers, a line each: a word, and further words after a space each, of which numbers are 8 hexadecimal digits.
#![allow(dead_code)]
use std::collections::BTreeMap;
use std::fmt::{Display, Formatter, Write as _};
use std::io::{BufWriter, Write as _};

pub struct Line(pub String);

impl Line {
    pub fn of(word: &str) -> Line {
        Line(word.to_string())
    }

    /// A space and a word of any form.
    pub fn then(mut self, word: impl Display) -> Line {
        // a string takes whatever is written
        _ = write!(self.0, " {}", word);
        self
    }

    pub fn all(self, words: &[impl Display]) -> Line {
        words.iter().fold(self, |line, word| line.then(word))
    }

    pub fn word(mut self, n: u32) -> Line {
        self.0.push(' ');
        self.0.extend((0..8).rev().map(|place| b"0123456789abcdef"[(n >> (4 * place)) as usize % 16] as char));
        self
    }

    pub fn words(self, list: &[u32]) -> Line {
        list.iter().fold(self, |line, word| line.word(*word))
    }

    pub fn floats(self, list: &[f32]) -> Line {
        list.iter().fold(self, |line, x| line.word(x.to_bits()))
    }

    /// Every NaN is 7fc00000.
    pub fn answers(self, list: &[f32]) -> Line {
        list.iter().fold(self, |line, x| line.word(shown(*x)))
    }
}

/// A float's bits, those of every NaN as one.
pub fn shown(x: f32) -> u32 {
    if x.is_nan() {
        0x7fc00000
    } else {
        x.to_bits()
    }
}

/// What floats are, for a summary: with a NaN, else with an infinity, else all zeros, else numbers.
#[derive(Clone, Copy, PartialEq, Eq, PartialOrd, Ord)]
pub enum Kind {
    Numbers,
    Zeros,
    Infinities,
    Nans,
}

impl Display for Kind {
    fn fmt(&self, f: &mut Formatter) -> std::fmt::Result {
        write!(f, "{}", ["value", "value-0", "value-inf", "value-NaN"][*self as usize])
    }
}

pub fn kind(list: &[f32]) -> Kind {
    if list.iter().any(|x| x.is_nan()) {
        Kind::Nans
    } else if list.iter().any(|x| x.is_infinite()) {
        Kind::Infinities
    } else if list.iter().all(|x| *x == 0.0) {
        Kind::Zeros
    } else {
        Kind::Numbers
    }
}

/// Where cases go, each with the name of its class.
pub type Put<'a, Case> = &'a mut dyn FnMut(&'static str, Case);

pub fn fail(message: &str) -> ! {
    eprintln!("oracle: {}", message);
    std::process::exit(1)
}

pub fn number(text: &str) -> u64 {
    text.parse().unwrap_or_else(|_| fail(&format!("not a number: {}", text)))
}

pub fn file(path: &str) -> BufWriter<std::fs::File> {
    BufWriter::new(std::fs::File::create(path).unwrap_or_else(|error| fail(&format!("{}: {}", path, error))))
}

/// How many cases of each class got what.
pub type Tally<Got> = BTreeMap<&'static str, BTreeMap<Got, usize>>;

pub fn row<Got: Display>(class: &str, answers: &BTreeMap<Got, usize>) -> String {
    let counts: Vec<String> = answers.iter().map(|(got, count)| format!("{} {}", got, count)).collect();
    format!("{:28} {:6}: {}", class, answers.values().sum::<usize>(), counts.join(" "))
}

pub fn print_tally<Got: Copy + Ord + Display>(tally: &Tally<Got>) {
    let mut all: BTreeMap<Got, usize> = BTreeMap::new();
    for (class, answers) in tally {
        eprintln!("{}", row(class, answers));
        for (got, count) in answers {
            *all.entry(*got).or_insert(0) += count;
        }
    }
    eprintln!("{}", row("all", &all));
}

/// The program: `vectors STDIN_FILE STDOUT_FILE` writes the stored cases and their answers, and `cases SEED COUNT STDIN_FILE
/// STDOUT_FILE` random ones. It says how many cases of each class got what.
pub fn run<Case, Got: Copy + Ord + Display>(
    stored: impl FnOnce(Put<Case>),
    random: impl FnOnce(u64, u64, Put<Case>),
    line: impl Fn(&Case) -> Line,
    mut answer: impl FnMut(&Case) -> (Line, Got),
) {
    let arguments: Vec<String> = std::env::args().skip(1).collect();
    let words: Vec<&str> = arguments.iter().map(String::as_str).collect();
    let (paths, kind): ([&str; 2], Option<[u64; 2]>) = match words[..] {
        ["vectors", stdin, stdout] => ([stdin, stdout], None),
        ["cases", seed, count, stdin, stdout] => ([stdin, stdout], Some([number(seed), number(count)])),
        _ => fail("usage: oracle vectors STDIN_FILE STDOUT_FILE | cases SEED COUNT STDIN_FILE STDOUT_FILE"),
    };
    let (mut input, mut output) = (file(paths[0]), file(paths[1]));
    let mut tally: Tally<Got> = BTreeMap::new();
    let mut put = |class: &'static str, case: Case| {
        let (answer, got) = answer(&case);
        *tally.entry(class).or_default().entry(got).or_insert(0) += 1;
        let written = writeln!(input, "{}", line(&case).0).and(writeln!(output, "{}", answer.0));
        written.unwrap_or_else(|error| fail(&error.to_string()));
    };
    match kind {
        None => stored(&mut put),
        Some([seed, count]) => random(seed, count, &mut put),
    }
    input.flush().and(output.flush()).unwrap_or_else(|error| fail(&error.to_string()));
    print_tally(&tally);
}
