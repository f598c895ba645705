//! Keys looked up among ordered positions.
use generator::rng::Rng;
use library::ordering::find_position;

use crate::run::{Outcome, Run, compare};
use crate::sort::{keys, ordered};

/// One search is short and its steps depend on its key, so there are many of them.
const CALLS: usize = 1000;

pub fn run(rng: &mut Rng, n: usize) -> Outcome {
    let keys = keys(rng, n);
    let order = ordered(&keys);
    // odd ones are missing, and some even ones too
    let wanted: Vec<u64> = (0..CALLS).map(|_| rng.below(2 * n) as u64).collect();
    let found: Vec<_> = wanted
        .iter()
        .map(|key| find_position(&keys, &order, *key))
        .collect();
    let expected: Vec<_> = wanted
        .iter()
        .map(|key| keys.iter().position(|k| k == key))
        .collect();
    compare(&found, &expected)?;
    Ok(Run {
        calls: CALLS,
        nodes: n,
        edges: 0,
    })
}
