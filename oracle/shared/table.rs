//! The nodes of a table.
#![allow(dead_code)]
use crate::stand_ins::exp;

/// The radii that starting sets.
pub fn radii(m: usize) -> Vec<f32> {
    let mut list = vec![0.0, 0.0025];
    while list.len() < m {
        list.push(list[list.len() - 1] * 1.2);
    }
    list
}

/// The albedos that starting sets.
pub fn albedos(n: usize) -> Vec<f32> {
    (0..n).map(|i| (1.0 - exp(-8.0 * i as f32 / (n as f32 - 1.0))) / (1.0 - exp(-8.0))).collect()
}

/// Whether check 6 accepts the nodes.
pub fn in_order(nodes: &[f32]) -> bool {
    nodes.iter().all(|x| x.is_finite())
        && nodes.windows(2).all(|pair| pair[0] < pair[1])
        && (nodes[nodes.len() - 1] - nodes[0]).is_finite()
}
