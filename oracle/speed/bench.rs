//! Times the calls of the library beside the functions of rs_pbrt, these with the functions of std and with the stand-ins: the least
//! of many turns, in which the three take turns, and of that the median of several runs. The library checks what it is given in each
//! call, and the functions of rs_pbrt check nothing. Before a call is timed, its answers have to be those of the stand-ins, by bits.
//! What is printed is Markdown.
mod facade;
mod library;
mod lines;
#[path = "../shared/numbers.rs"]
mod numbers;
#[path = "../shared/references.rs"]
mod references;
mod rust;
#[path = "../shared/stand_ins.rs"]
mod stand_ins;
mod tasks;
#[path = "../shared/timing.rs"]
mod timing;

use library::{any_material, Library, Material, Query, Table, ONE_MATERIAL};
use lines::{print_grid, print_lines, print_spreads, Line};
use numbers::Rng;
use std::rc::Rc;
use tasks::{Before, Build, Integrate, Make, PdfSr, Sample2d, SampleSr, Sr, Start, Sw, Weights};

const RUNS: usize = 5;
/// Calls in a turn, and turns in a run, of what takes less than a µs.
const CALLS: usize = 20000;
const TURNS: usize = 50;
/// The turns of a run where there are many lines, or a turn takes long.
const FEW_TURNS: usize = 15;
/// Rows that are timed alone are so far apart.
const STEP: usize = 10;

const ROWS: [usize; 5] = [2, 8, 32, 100, 128];
const RADII: [usize; 4] = [8, 16, 32, 64];

/// A whole table, by the stand-ins.
fn whole(n: usize, m: usize) -> Table {
    let mut maker = rust::by_stand_ins::Rust::over(&Table::zeros(n, m));
    maker.make();
    maker.table()
}

fn queries(table: &Table, mut material: impl FnMut(&mut Rng) -> Material) -> Rc<[Query]> {
    let mut rng = Rng((table.n * 1000 + table.m) as u64);
    let mut query = || {
        let material = material(&mut rng);
        Query::any(&mut rng, material, &table.radius_samples)
    };
    (0..CALLS).map(|_| query()).collect()
}

fn pairs() -> Rc<[[f32; 2]]> {
    let mut rng = Rng(1);
    (0..CALLS).map(|_| [rng.unit(), rng.unit()]).collect()
}

fn table_lines(table: &Table) -> Vec<Line> {
    let rows = table.n / STEP;
    vec![
        Line::new("`start`, 100 by 64", table, Start, 100, TURNS),
        Line::new("`build`, a row of 64 radii", table, Build(STEP), rows, FEW_TURNS),
        Line::new("a whole table, 100 by 64", table, Make, 1, FEW_TURNS),
    ]
}

fn query_lines(table: &Table) -> Vec<Line> {
    let any = queries(table, any_material);
    let one = queries(table, |_| ONE_MATERIAL);
    let cases = [
        ("", any.clone(), Before::Taken),
        (", sigma_t and albedo worked out in the Rust too", any, Before::WorkedOut),
        (", one material", one, Before::Taken),
    ];
    let mut lines = Vec::new();
    for (name, queries, before) in cases {
        let [sr, pdf_sr, sample_sr] = ["sr", "pdf_sr", "sample_sr"].map(|call| format!("`{}`{}", call, name));
        lines.push(Line::new(&sr, table, Sr(queries.clone(), before), CALLS, TURNS));
        lines.push(Line::new(&pdf_sr, table, PdfSr(queries.clone(), before), CALLS, TURNS));
        lines.push(Line::new(&sample_sr, table, SampleSr(queries, before), CALLS, TURNS));
    }
    lines
}

fn other_lines(table: &Table) -> Vec<Line> {
    vec![
        Line::new("`sw`", table, Sw(pairs()), CALLS, TURNS),
        Line::new("`weights`, 10 nodes", &whole(10, 2), Weights(pairs()), CALLS, TURNS),
        Line::new("`weights`, 100 nodes", table, Weights(pairs()), CALLS, TURNS),
        Line::new("`integrate`, 64 nodes", table, Integrate(table.n), CALLS, TURNS),
        Line::new("`sample_2d`, 100 by 64 nodes", table, Sample2d(pairs()), CALLS, TURNS),
    ]
}

fn build_lines() -> Vec<Line> {
    let line = |m: usize| Line::new(&format!("`build`, a row of {} radii", m), &whole(100, m), Build(STEP), 100 / STEP, FEW_TURNS);
    RADII.map(line).into()
}

/// For each size a line of each query.
fn grids() -> [Vec<Line>; 3] {
    let mut grids = [Vec::new(), Vec::new(), Vec::new()];
    for (n, m) in ROWS.iter().flat_map(|n| RADII.map(|m| (*n, m))) {
        let table = whole(n, m);
        let any = queries(&table, any_material);
        let name = |call: &str| format!("`{}`, {} by {}", call, n, m);
        grids[0].push(Line::new(&name("sr"), &table, Sr(any.clone(), Before::Taken), CALLS, FEW_TURNS));
        grids[1].push(Line::new(&name("pdf_sr"), &table, PdfSr(any.clone(), Before::Taken), CALLS, FEW_TURNS));
        grids[2].push(Line::new(&name("sample_sr"), &table, SampleSr(any, Before::Taken), CALLS, FEW_TURNS));
    }
    grids
}

fn main() {
    let table = whole(100, 64);
    let mut calls: Vec<Line> = [table_lines(&table), query_lines(&table), other_lines(&table)].into_iter().flatten().collect();
    let mut builds = build_lines();
    let mut grids = grids();
    for _ in 0..RUNS {
        let all = calls.iter_mut().chain(&mut builds).chain(grids.iter_mut().flatten());
        all.for_each(Line::run);
    }
    print_lines(&calls);
    println!("\nHow building a row grows with M, in a table of 100 rows:\n");
    print_lines(&builds);
    println!("\nHow queries grow with N and M, in ns: the library (the Rust with the stand-ins, with its own functions):");
    for (what, grid) in ["`sr`", "`pdf_sr`", "`sample_sr`"].iter().zip(&grids) {
        println!();
        print_grid(what, &ROWS, &RADII, grid);
    }
    println!();
    print_spreads(&calls.iter().chain(&builds).chain(grids.iter().flatten()).collect::<Vec<_>>());
}
