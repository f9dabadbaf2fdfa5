//! A line of the benchmark: the same calls by the three, compared and then timed, and their times over several runs.
use crate::facade::Facade;
use crate::library::{Library, Table};
use crate::rust::{by_stand_ins, by_std};
use crate::tasks::{bits_of, Answer, Task};
use crate::timing;
use std::hint::black_box;

/// The same table in the hands of each: the Rust with the functions of std, with the stand-ins, and the library.
struct Three {
    std: by_std::Rust,
    stand_ins: by_stand_ins::Rust,
    library: Facade,
}

fn table_bits(t: &Table) -> Vec<u32> {
    bits_of(&[&t.rho_samples[..], &t.radius_samples, &t.profile, &t.rho_eff, &t.profile_cdf].concat())
}

/// So many calls of a task.
fn pass<T: Task, L: Library>(task: &T, calls: usize, library: &mut L) {
    let library = black_box(library);
    (0..calls).for_each(|i| _ = black_box(task.call(library, i)));
}

impl Three {
    fn over(table: &Table) -> Three {
        Three { std: Library::over(table), stand_ins: Library::over(table), library: Library::over(table) }
    }

    /// Stops where an answer of the library, or what is in its table after all calls, is not that of the stand-ins.
    fn compare<T: Task>(&mut self, name: &str, task: &T, calls: usize) {
        for i in 0..calls {
            let [one, other] = [task.call(&mut self.stand_ins, i).bits(), task.call(&mut self.library, i).bits()];
            assert!(one == other, "{}: answers differ", name);
        }
        assert!(table_bits(&self.stand_ins.table()) == table_bits(&self.library.table()), "{}: tables differ", name);
        assert!(self.library.marks.iter().all(|mark| *mark == T::MARK), "{}: marks are not {}", name, T::MARK);
    }

    /// ns per call of each, the least of so many turns.
    fn times<T: Task>(&mut self, task: &T, calls: usize, turns: usize) -> [f64; 3] {
        let Three { std, stand_ins, library } = self;
        let times = timing::least(
            turns,
            [&mut || pass(task, calls, std), &mut || pass(task, calls, stand_ins), &mut || pass(task, calls, library)],
        );
        times.map(|time| time / calls as f64)
    }
}

pub struct Line {
    name: String,
    measure: Box<dyn FnMut() -> [f64; 3]>,
    runs: Vec<[f64; 3]>,
}

fn median(mut numbers: Vec<f64>) -> f64 {
    numbers.sort_by(f64::total_cmp);
    numbers[numbers.len() / 2]
}

impl Line {
    pub fn new<T: Task + 'static>(name: &str, table: &Table, task: T, calls: usize, turns: usize) -> Line {
        let mut three = Three::over(table);
        three.compare(name, &task, calls);
        Line { name: name.to_string(), measure: Box::new(move || three.times(&task, calls, turns)), runs: Vec::new() }
    }

    pub fn run(&mut self) {
        self.runs.push((self.measure)());
    }

    fn times_of(&self, who: usize) -> Vec<f64> {
        self.runs.iter().map(|run| run[who]).collect()
    }

    /// The median of the runs, of each.
    fn medians(&self) -> [f64; 3] {
        [0, 1, 2].map(|who| median(self.times_of(who)))
    }

    /// How far the runs of one of the three are apart at most, as a part of their median.
    fn spread(&self) -> f64 {
        let spread_of = |who: usize| {
            let times = self.times_of(who);
            let [least, most] = [times.iter().copied().fold(f64::MAX, f64::min), times.iter().copied().fold(0.0, f64::max)];
            (most - least) / median(times)
        };
        [0, 1, 2].map(spread_of).into_iter().fold(0.0, f64::max)
    }
}

/// The unit of a line by the library's ns, what it is in ns, and the digits after the point.
fn unit(ns: f64) -> (&'static str, f64, usize) {
    if ns < 1e3 {
        ("ns", 1.0, 1)
    } else if ns < 1e6 {
        ("µs", 1e3, 2)
    } else {
        ("ms", 1e6, 2)
    }
}

/// A table of Markdown with the medians.
pub fn print_lines(lines: &[Line]) {
    println!("| what | | Rust, its own functions | Rust, stand-ins | library | ratio to its own | ratio to the stand-ins |");
    println!("|---|---|---|---|---|---|---|");
    for line in lines {
        let [std, stand_ins, library] = line.medians();
        let (unit, scale, digits) = unit(library);
        let [a, b, c] = [std, stand_ins, library].map(|time| format!("{:.digits$}", time / scale));
        println!("| {} | {} | {} | {} | {} | {:.2} | {:.2} |", line.name, unit, a, b, c, std / library, stand_ins / library);
    }
}

/// A table of Markdown with the medians in ns of the library, and in brackets those of the Rust, with the stand-ins and with its
/// own functions: a row for each N, a column for each M.
pub fn print_grid(what: &str, rows: &[usize], columns: &[usize], lines: &[Line]) {
    println!("| {}: N | {} |", what, columns.iter().map(|m| format!("M {}", m)).collect::<Vec<_>>().join(" | "));
    println!("|---{}|", "|---".repeat(columns.len()));
    for (n, lines) in rows.iter().zip(lines.chunks(columns.len())) {
        let cell = |line: &Line| {
            let [std, stand_ins, library] = line.medians();
            format!("{:.0} ({:.0}, {:.0})", library, stand_ins, std)
        };
        println!("| {} | {} |", n, lines.iter().map(cell).collect::<Vec<_>>().join(" | "));
    }
}

/// How far the runs of a line are apart, in the middle of the lines and at most.
pub fn print_spreads(lines: &[&Line]) {
    let spreads: Vec<f64> = lines.iter().map(|line| 100.0 * line.spread()).collect();
    let Some(widest) = lines.iter().max_by(|one, other| one.spread().total_cmp(&other.spread())) else { return };
    let (middle, most) = (median(spreads), 100.0 * widest.spread());
    println!(
        "The runs of a line are {:.1} % apart in the middle of the lines, and {:.1} % at most ({}).",
        middle, most, widest.name
    );
}
