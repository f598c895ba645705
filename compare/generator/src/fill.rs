//! Gives a sketch its ids, delay words, flags, positions and transfers.
use std::collections::BTreeSet;

use crate::lists::{ABSENT_DELAY, SUPPORT, SceneLists};
use crate::rng::Rng;
use crate::sketch::Sketch;

pub fn filled(rng: &mut Rng, sketch: &Sketch) -> SceneLists {
    let ids = ids(rng, sketch.kinds.len());
    let mut lists = SceneLists::default();
    for (id, kind) in ids.iter().zip(&sketch.kinds) {
        push_any_component(rng, &mut lists, *id, *kind);
    }
    // one delay for all makes sums equal, or as large as they can be
    if rng.chance(1, 5) {
        let delay = rng.pick(&[1, 2, 255, 255, ABSENT_DELAY]);
        lists.delays.fill(delay);
    }
    let mut connections = Vec::new();
    for &(a, b) in &sketch.edges {
        connections.push((ids[a], ids[b], rng.below(6) as u8));
    }
    for &(a, b) in &sketch.supports {
        let mut id = |position: usize| {
            ids.get(position)
                .copied()
                .unwrap_or_else(|| absent_id(rng, &ids))
        };
        connections.push((id(a), id(b), SUPPORT));
    }
    // as made, a line's edges follow its direction
    if rng.chance(3, 4) {
        rng.shuffle(&mut connections);
    }
    for (source, sink, transfer) in connections {
        lists.push_connection(source, sink, transfer);
    }
    lists
}

pub fn push_any_component(rng: &mut Rng, lists: &mut SceneLists, id: u64, kind: u8) {
    let delay = delay(rng);
    let locked = rng.below(2) as u8;
    let position = [coordinate(rng), coordinate(rng), coordinate(rng)];
    lists.push_component(id, kind, delay, locked, position);
}

/// Different ids, in any order: small ones, ones up to 2^64 - 1, any, or all of these.
pub fn ids(rng: &mut Rng, n: usize) -> Vec<u64> {
    let style = rng.below(4);
    let mut ids = BTreeSet::new();
    while ids.len() < n {
        ids.insert(id(rng, style, n));
    }
    let mut ids: Vec<_> = ids.into_iter().collect();
    if rng.chance(4, 5) {
        rng.shuffle(&mut ids);
    }
    ids
}

fn id(rng: &mut Rng, style: usize, n: usize) -> u64 {
    match style {
        0 => rng.below(2 * n) as u64,
        1 => u64::MAX - rng.below(2 * n) as u64,
        2 => rng.word(),
        _ => {
            let style = rng.below(3);
            id(rng, style, n)
        }
    }
}

/// An id that is not among `ids`, mostly close to one that is.
pub fn absent_id(rng: &mut Rng, ids: &[u64]) -> u64 {
    loop {
        let id = match rng.below(4) {
            0 => rng.word(),
            1 => u64::MAX - rng.below(4) as u64,
            2 if !ids.is_empty() => rng.pick(ids).wrapping_add(1),
            _ => rng.below(ids.len() + 4) as u64,
        };
        if !ids.contains(&id) {
            return id;
        }
    }
}

fn delay(rng: &mut Rng) -> u16 {
    match rng.below(4) {
        0 => ABSENT_DELAY,
        1 => rng.pick(&[0, 1, 254, 255]),
        2 => rng.between(1, 4) as u16,
        _ => rng.below(256) as u16,
    }
}

/// For each of `n` nodes a delay, and one that is no smaller.
pub fn delay_ranges(rng: &mut Rng, n: usize) -> (Vec<u32>, Vec<u32>) {
    (0..n)
        .map(|_| {
            let low = u32::from(delay(rng));
            (low, low + rng.below(3) as u32)
        })
        .unzip()
}

fn coordinate(rng: &mut Rng) -> i32 {
    match rng.below(3) {
        0 => rng.between(0, 6) as i32 - 3,
        1 => rng.pick(&[i32::MIN, i32::MIN + 1, -1, 0, i32::MAX]),
        _ => rng.word() as i32,
    }
}
