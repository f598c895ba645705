//! Positions sorted by key.
use generator::rng::Rng;
use library::ordering::sort_positions;

use crate::run::{CALLS, Outcome, Run, compare};

/// Keys of which many are equal, so that the order among those shows.
pub fn keys(rng: &mut Rng, n: usize) -> Vec<u64> {
    (0..n).map(|_| 2 * rng.below(n) as u64).collect()
}

/// The positions by key, and by position where keys are equal.
pub fn ordered(keys: &[u64]) -> Vec<usize> {
    let mut order: Vec<_> = (0..keys.len()).collect();
    order.sort_by_key(|i| (keys[*i], *i));
    order
}

pub fn run(rng: &mut Rng, n: usize) -> Outcome {
    const GUARDS: [usize; 2] = [usize::MAX, 7];
    let keys = keys(rng, n);
    let mut order = [&vec![0; n], &GUARDS[..]].concat();
    let mut scratch = vec![0; n];
    for _ in 0..CALLS {
        if !sort_positions(&keys, &mut order, &mut scratch) {
            return Err("refused".to_string());
        }
    }
    compare(&order, &[&ordered(&keys), &GUARDS[..]].concat())?;
    Ok(Run {
        calls: CALLS,
        nodes: n,
        edges: 0,
    })
}
