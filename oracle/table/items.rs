//! The making of a beam diffusion table, cut out of the sources of rs_pbrt. Square roots, exponentials, logarithms and the maxima
//! with 0 go to stand-ins. Beside the function that makes a whole table stand two that are made of its text: one of the nodes, which
//! it chooses first, and one of a single row, the body of its last loop.
use crate::cutting::{fail, float_type, function, item, line, methods, route, routed, source};

const TABLE: &str = "pub fn compute_beam_diffusion_bssrdf(g: Float, eta: Float, t: &mut BssrdfTable) {";
const NODES: &str = "pub fn compute_nodes(t: &mut BssrdfTable) {";
const ROW: &str = "pub fn compute_row(g: Float, eta: Float, t: &mut BssrdfTable, i: usize) {";
/// There are two such loops: one over the albedo nodes, and the last one, over the rows.
const LOOP: &str = "    for i in 0..t.n_rho_samples as usize {";
const LOOP_END: &str = "    }";

/// The functions of the nodes and of one row.
fn nodes_and_row(table: &str) -> [String; 2] {
    let lines: Vec<&str> = table.lines().collect();
    let loops: Vec<usize> = (0..lines.len()).filter(|at| lines[*at] == LOOP).collect();
    if lines[0] != TABLE {
        fail(format!("`{}` was expected, and not `{}`", TABLE, lines[0]));
    }
    if loops.len() != 2 {
        fail(format!("`{}` was expected twice, and is there {} times", LOOP.trim(), loops.len()));
    }
    let before = &lines[1..loops[1]];
    let within = &lines[loops[1] + 1..];
    let Some(end) = within.iter().position(|line| *line == LOOP_END) else { fail("no end of the last loop".to_string()) };
    let (body, after) = (&within[..end], &within[end + 1..]);
    let comment = |line: &&str| line.trim().is_empty() || line.trim().starts_with("//");
    if after.last() != Some(&"}") || !after[..after.len() - 1].iter().all(comment) {
        fail(format!("nothing was expected after the last loop: {:?}", after));
    }
    [(NODES, before), (ROW, body)].map(|(head, body)| format!("{}\n{}\n}}\n", head, body.join("\n")))
}

/// Everything that makes a table.
pub fn items(sources: &str) -> Vec<String> {
    let pbrt = source(sources, "pbrt");
    let interpolation = source(sources, "interpolation");
    let medium = source(sources, "medium");
    let reflection = source(sources, "reflection");
    let bssrdf = source(sources, "bssrdf");
    let table = routed(function(&bssrdf, "compute_beam_diffusion_bssrdf"), 0, 2, 0, 0);
    let [nodes, row] = nodes_and_row(&table);
    vec![
        line(&bssrdf, "use std::f32::consts::PI;"),
        float_type(&pbrt),
        line(&pbrt, "pub const INV_4_PI:"),
        function(&pbrt, "clamp_t"),
        function(&interpolation, "integrate_catmull_rom"),
        route(&function(&medium, "phase_hg"), 1, "denom", ".sqrt()", ".stand_in_root()"),
        routed(function(&reflection, "fr_dielectric"), 2, 0, 0, 2),
        function(&bssrdf, "fresnel_moment1"),
        function(&bssrdf, "fresnel_moment2"),
        routed(function(&bssrdf, "beam_diffusion_ms"), 3, 5, 1, 0),
        routed(function(&bssrdf, "beam_diffusion_ss"), 2, 1, 1, 0),
        item(&bssrdf, "pub struct BssrdfTable"),
        methods(&bssrdf, "BssrdfTable", &["new", "eval_profile"]),
        table,
        nodes,
        row,
    ]
}

/// The methods that stand in these items.
pub const KNOWN: [&str; 5] = ["stand_in_root", "stand_in_exp", "stand_in_ln", "stand_in_max", "abs"];
