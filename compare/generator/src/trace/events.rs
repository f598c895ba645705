//! The events of random traces: which components they name, at which ticks, and which levels.
use std::collections::BTreeMap;

use super::lists::TraceLists;
use crate::fill::ids;
use crate::rng::Rng;

/// A name, and how so many components are named one after the other.
pub type Shape = (&'static str, fn(&mut Rng, usize) -> Vec<u64>);

pub const SHAPES: [Shape; 6] = [
    ("one component", one),
    ("few components", few),
    ("many components", many),
    ("components in turn", in_turn),
    ("components in runs", in_runs),
    ("a component each", each),
];

/// Different components, in any order; where there are few, often such that differ from one of them
/// in one bit.
fn different(rng: &mut Rng, n: usize) -> Vec<u64> {
    if n > 64 || rng.chance(1, 2) {
        return ids(rng, n);
    }
    let one = ids(rng, 1)[0];
    let mut others: Vec<_> = (0..64).map(|bit| one ^ (1 << bit)).collect();
    rng.shuffle(&mut others);
    others.insert(0, one);
    others.truncate(n);
    rng.shuffle(&mut others);
    others
}

fn one(rng: &mut Rng, n: usize) -> Vec<u64> {
    vec![ids(rng, 1)[0]; n]
}

fn any_of(rng: &mut Rng, n: usize, count: usize) -> Vec<u64> {
    let ids = different(rng, count);
    (0..n).map(|_| rng.pick(&ids)).collect()
}

pub fn few(rng: &mut Rng, n: usize) -> Vec<u64> {
    let count = rng.between(2, 4);
    any_of(rng, n, count)
}

/// About four events for each.
pub fn many(rng: &mut Rng, n: usize) -> Vec<u64> {
    any_of(rng, n, n / 4 + 1)
}

fn in_turn(rng: &mut Rng, n: usize) -> Vec<u64> {
    let count = rng.between(2, 7);
    let ids = different(rng, count);
    ids.into_iter().cycle().take(n).collect()
}

/// The events of a component follow each other, but for some runs that name an earlier one again.
fn in_runs(rng: &mut Rng, n: usize) -> Vec<u64> {
    let ids = different(rng, n / 4 + 1);
    let mut components = Vec::new();
    while components.len() < n {
        let length = rng.between(1, 9).min(n - components.len());
        let id = rng.pick(&ids);
        components.extend(vec![id; length]);
    }
    components
}

/// Nothing can be a pulse.
pub fn each(rng: &mut Rng, n: usize) -> Vec<u64> {
    different(rng, n)
}

/// A trace of these components without contracts.
pub fn trace(rng: &mut Rng, components: Vec<u64>) -> TraceLists {
    let n = components.len();
    // rising ticks reach the largest one early, late or never
    let first = match rng.below(3) {
        0 => u64::MAX - 6 * n as u64,
        1 => u64::MAX - rng.below(3 * n + 1) as u64,
        _ => rng.below(1000) as u64,
    };
    let taste = rng.below(9);
    let ticks = ticks(rng, n, taste, first);
    let repeated = rng.pick(&[0, 0, 1, 6, 12]);
    with_levels(rng, ticks, components, repeated)
}

/// One in which each three successive events of a component are a pulse.
pub fn busy_trace(rng: &mut Rng, components: Vec<u64>) -> TraceLists {
    let ticks = ticks(rng, components.len(), 0, 0);
    with_levels(rng, ticks, components, 0)
}

/// Ticks after one taste: rising, rising or equal, all equal, falling, few different, up to the
/// largest, any, or each after another taste.
fn ticks(rng: &mut Rng, n: usize, taste: usize, first: u64) -> Vec<u64> {
    let mut last = first;
    let mut next = || {
        let taste = if taste == 8 { rng.below(8) } else { taste };
        last = tick(rng, taste, last);
        last
    };
    (0..n).map(|_| next()).collect()
}

fn tick(rng: &mut Rng, taste: usize, last: u64) -> u64 {
    let ends = [0, 1, 1 << 63, u64::MAX - 1, u64::MAX];
    match taste {
        0 | 1 => last.saturating_add(rng.between(1, 5) as u64),
        2 | 3 => last.saturating_add(rng.below(3) as u64),
        4 => last,
        5 => last.saturating_sub(rng.below(3) as u64),
        6 => rng.below(4) as u64,
        _ if rng.chance(1, 2) => rng.pick(&ends),
        _ => rng.word(),
    }
}

/// Each level is not its component's last one, but for so many of twelve that repeat it.
fn with_levels(
    rng: &mut Rng,
    ticks: Vec<u64>,
    components: Vec<u64>,
    repeated: usize,
) -> TraceLists {
    let mut last = BTreeMap::new();
    let next = |component: &u64| {
        let level = last.entry(*component).or_insert(rng.below(2) as u8);
        *level ^= u8::from(!rng.chance(repeated, 12));
        *level
    };
    let powered = components.iter().map(next).collect();
    TraceLists {
        unit: rng.below(2) as u8,
        ticks,
        components,
        powered,
        ..TraceLists::default()
    }
}
