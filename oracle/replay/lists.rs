//! Lists of nodes and of values to make cases from, good ones and spoiled ones.
use crate::numbers::{nans, up, Rng};
use crate::table::radii;

pub const NODE_KINDS: usize = 13;

/// A list of n nodes that is in order.
pub fn nodes(kind: usize, n: usize, rng: &mut Rng) -> Vec<f32> {
    let last = (n - 1) as f32;
    let from = |first: f32, next: &mut dyn FnMut(f32) -> f32| {
        let mut list = vec![first];
        while list.len() < n {
            list.push(next(list[list.len() - 1]));
        }
        list
    };
    match kind % NODE_KINDS {
        // whole numbers
        0 => (0..n).map(|i| i as f32).collect(),
        // as the radii of a table
        1 => radii(n),
        // as its albedos: closer towards 1
        2 => {
            let mut left = 1.0f32;
            (0..n)
                .map(|i| {
                    let x = 1.0 - left;
                    left *= 0.94;
                    if i + 1 == n {
                        1.0
                    } else {
                        x
                    }
                })
                .collect()
        }
        // neighbouring floats
        3 => from(1.0 + rng.unit(), &mut up),
        // a few floats apart, and far apart, by turns
        4 => from(rng.scale(-20, -10), &mut |x| if rng.chance(50) { up(x) } else { x * (1.5 + rng.unit()) }),
        // from one end to the other, last minus first being the largest float
        5 => {
            let end = f32::from_bits(0x7effffff);
            (0..n).map(|i| (end as f64 * (2.0 * (i as f64) / (last as f64) - 1.0)) as f32).collect()
        }
        // up to the largest float
        6 => (0..n).rev().map(|i| f32::from_bits(0x7f7fffff - i as u32 * 17)).collect(),
        // subnormals from 0 on
        7 => from(0.0, &mut |x| f32::from_bits(x.to_bits() + 1 + rng.below(3) as u32)),
        // subnormals about 0, with gaps of one and more
        8 => {
            let low = n as i32 / 2;
            (0..n)
                .map(|i| {
                    let k = i as i32 - low;
                    if k < 0 {
                        -f32::from_bits(3 * (-k) as u32)
                    } else {
                        f32::from_bits(k as u32)
                    }
                })
                .collect()
        }
        // below 0
        9 => nodes(1, n, rng).iter().rev().map(|x| -x).collect(),
        // about a zero of either sign
        10 => {
            let zero = if rng.chance(50) { 0.0 } else { -0.0f32 };
            let low = n as i32 / 2;
            (0..n).map(|i| i as i32 - low).map(|k| if k == 0 { zero } else { k as f32 * 0.375 }).collect()
        }
        // any patterns whose differences are finite
        11 => loop {
            let mut list: Vec<f32> =
                (0..2 * n).map(|_| f32::from_bits(rng.bits() % 0x7f000000 | rng.bits() & 0x80000000)).collect();
            list.retain(|x| x.abs() < 1.7e38);
            list.sort_by(|a, b| a.total_cmp(b));
            list.dedup_by(|a, b| a == b);
            if n <= list.len() {
                let first = rng.below(list.len() - n + 1);
                return list[first..first + n].to_vec();
            }
        },
        // even steps of any size
        _ => {
            let (first, step) = (rng.unit() * 8.0 - 4.0, rng.scale(-3, 3));
            (0..n).map(|i| first + step * i as f32).collect()
        }
    }
}

pub const SPOILT_KINDS: usize = 13;

/// A list of n nodes, two or more, that is not in order, each kind for another reason.
pub fn spoilt(kind: usize, n: usize, rng: &mut Rng) -> Vec<f32> {
    let mut list = nodes(rng.below(3), n, rng);
    let at = rng.below(n - 1);
    match kind % SPOILT_KINDS {
        0 => list[0] = f32::NAN,
        1 => list[n - 1] = rng.pick(&nans()),
        2 => list[at] = rng.pick(&nans()),
        3 => list[n - 1] = f32::INFINITY,
        4 => list[0] = f32::NEG_INFINITY,
        5 => list[at] = f32::INFINITY,
        6 => list[at] = list[at + 1],
        7 => list.swap(at, at + 1),
        8 => list.reverse(),
        // a zero and the other zero
        9 => {
            list = nodes(10, n, rng);
            list[n / 2 - 1] = -0.0;
            list[n / 2] = 0.0
        }
        10 => {
            list = nodes(10, n, rng);
            list[n / 2 - 1] = 0.0;
            list[n / 2] = -0.0
        }
        // last minus first overflows, by much and by as little as there is
        11 => {
            list[0] = -3e38;
            list[n - 1] = 3e38
        }
        _ => {
            list[0] = f32::from_bits(0xfeffffff);
            list[n - 1] = f32::from_bits(0x7f000000)
        }
    }
    list
}

pub const VALUE_KINDS: usize = 11;

pub fn values(kind: usize, n: usize, rng: &mut Rng) -> Vec<f32> {
    let scale = rng.scale(-30, 30);
    let slope = rng.unit();
    let at = rng.below(n.max(1));
    (0..n)
        .map(|i| match kind % VALUE_KINDS {
            0 => scale,
            1 => slope * i as f32,
            2 => rng.unit(),
            3 => rng.unit() * 2.0 - 1.0,
            4 => scale * rng.unit(),
            5 => {
                if i == at {
                    f32::NAN
                } else {
                    rng.unit()
                }
            }
            6 => {
                if i == at {
                    f32::INFINITY
                } else {
                    rng.unit() - 0.5
                }
            }
            7 => f32::from_bits(rng.bits() & 0x807fffff),
            8 => rng.unit() * 3e38 * if rng.chance(50) { 1.0 } else { -1.0 },
            9 => {
                if rng.chance(50) {
                    0.0
                } else {
                    -0.0
                }
            }
            _ => rng.any(),
        })
        .collect()
}
