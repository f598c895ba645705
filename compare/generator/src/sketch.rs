//! A scene before its components have ids, and the parts that shapes are made of.
use crate::kinds;
use crate::rng::Rng;

/// From one position to another.
pub type Pair = (usize, usize);

#[derive(Default)]
pub struct Sketch {
    pub kinds: Vec<u8>,
    pub edges: Vec<Pair>,
    /// A position past the last one stands for an absent id.
    pub supports: Vec<Pair>,
}

impl Sketch {
    /// One without supports.
    pub fn new(kinds: Vec<u8>, edges: Vec<Pair>) -> Self {
        let supports = Vec::new();
        Self {
            kinds,
            edges,
            supports,
        }
    }
}

pub fn any_kinds(rng: &mut Rng, n: usize) -> Vec<u8> {
    kinds_from(rng, n, &kinds::ALL)
}

pub fn kinds_from(rng: &mut Rng, n: usize, from: &[u8]) -> Vec<u8> {
    (0..n).map(|_| rng.pick(from)).collect()
}

/// `n` kinds after one taste: all passive, passive but for one device, all devices, or any.
pub fn some_kinds(rng: &mut Rng, n: usize) -> Vec<u8> {
    match rng.below(4) {
        0 => kinds_from(rng, n, &kinds::PASSIVE),
        1 => {
            let mut kinds = kinds_from(rng, n, &kinds::PASSIVE);
            kinds[rng.below(n)] = rng.pick(&kinds::DEVICES);
            kinds
        }
        2 => kinds_from(rng, n, &kinds::DEVICES),
        _ => any_kinds(rng, n),
    }
}

pub fn any_edges(rng: &mut Rng, n: usize, m: usize) -> Vec<Pair> {
    (0..m).map(|_| (rng.below(n), rng.below(n))).collect()
}

/// Edges from an earlier to a later position only; none where there is one position.
pub fn forward_edges(rng: &mut Rng, n: usize, m: usize) -> Vec<Pair> {
    let edges = if n < 2 { 0 } else { m };
    (0..edges)
        .map(|_| {
            let sink = rng.between(1, n - 1);
            (rng.below(sink), sink)
        })
        .collect()
}

/// Each position to the next one, `n` positions from `start` on.
pub fn line(start: usize, n: usize) -> Vec<Pair> {
    (start + 1..start + n).map(|i| (i - 1, i)).collect()
}

/// A line whose last position leads to its first; a self-edge where there is one position.
pub fn ring(start: usize, n: usize) -> Vec<Pair> {
    let mut edges = line(start, n);
    edges.push((start + n - 1, start));
    edges
}

pub fn both_ways(edges: Vec<Pair>) -> Vec<Pair> {
    edges
        .into_iter()
        .flat_map(|(a, b)| [(a, b), (b, a)])
        .collect()
}

/// Cuts `n` positions into runs of at most `longest`: where each starts, and how long it is.
pub fn runs(rng: &mut Rng, n: usize, longest: usize) -> Vec<Pair> {
    let mut runs = Vec::new();
    let mut start = 0;
    while start < n {
        let length = rng.between(1, longest.min(n - start));
        runs.push((start, length));
        start += length;
    }
    runs
}
