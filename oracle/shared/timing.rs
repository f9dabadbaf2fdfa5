//! Times several ways to do the same.
use std::time::Instant;

/// The least time of each in ns, over as many turns, in which they take turns.
pub fn least<const N: usize>(turns: usize, mut ways: [&mut dyn FnMut(); N]) -> [f64; N] {
    let mut least = [f64::MAX; N];
    for _ in 0..turns {
        for (way, least) in ways.iter_mut().zip(least.iter_mut()) {
            let start = Instant::now();
            way();
            *least = least.min(start.elapsed().as_nanos() as f64);
        }
    }
    least
}
