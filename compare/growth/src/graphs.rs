//! The shapes of graphs, with four edges for each node or nearly so.
use generator::rng::Rng;
use generator::sketch::{self, Pair, any_edges, both_ways, forward_edges, line};

/// A name, and how such a graph is made.
pub type Shape = (&'static str, fn(&mut Rng, usize) -> Vec<Pair>);

pub const SHAPES: [Shape; 6] = [
    ("random", random),
    ("forward", forward),
    ("ring", ring),
    ("chain", chain),
    ("hub", hub),
    ("grid", grid),
];

/// The edges of a graph of `n` nodes, 1 or more, in any order. The nodes keep theirs: so visits
/// that start at node 0 go along the whole of a ring or a chain, as deep as they can.
pub fn edges(rng: &mut Rng, name: &str, n: usize) -> Option<Vec<Pair>> {
    let shape = SHAPES.iter().find(|shape| shape.0 == name)?;
    let mut edges = shape.1(rng, n);
    rng.shuffle(&mut edges);
    Some(edges)
}

fn random(rng: &mut Rng, n: usize) -> Vec<Pair> {
    any_edges(rng, n, 4 * n)
}

/// None from a later node to an earlier one, so that there is no cycle.
fn forward(rng: &mut Rng, n: usize) -> Vec<Pair> {
    forward_edges(rng, n, 4 * n)
}

fn ring(_: &mut Rng, n: usize) -> Vec<Pair> {
    sketch::ring(0, n).repeat(4)
}

fn chain(_: &mut Rng, n: usize) -> Vec<Pair> {
    line(0, n).repeat(4)
}

/// A node in the middle, joined with every other one both ways, each time by two edges.
fn hub(_: &mut Rng, n: usize) -> Vec<Pair> {
    let spokes = (0..n).filter(|v| *v != n / 2).map(|v| (n / 2, v));
    both_ways(spokes.collect()).repeat(2)
}

/// Rows and columns, as many of one as of the other or nearly so, neighbours joined both ways.
fn grid(_: &mut Rng, n: usize) -> Vec<Pair> {
    let width = n.isqrt();
    let across = (1..n).filter(|v| v % width != 0).map(|v| (v - 1, v));
    let down = (width..n).map(|v| (v - width, v));
    both_ways(across.chain(down).collect())
}
