//! Settled nodes, the sums of the paths to each node, and the nodes where they differ.
use generator::fill::delay_ranges;
use generator::rng::Rng;
use generator::sketch::Pair;
use library::reconvergent::{Reconverged, SumLists, TimedGraph, reconvergent_delay_reasons};
use plain::reconvergence::reconvergence;

use crate::run::{CALLS, Outcome, Run, compare};

/// All nodes are to be listed where their sums differ, in any order.
pub fn run(rng: &mut Rng, n: usize, edges: &[Pair]) -> Outcome {
    let (sources, sinks) = edges.iter().copied().unzip();
    let (low, high) = delay_ranges(rng, n);
    let mut order: Vec<_> = (0..n).collect();
    rng.shuffle(&mut order);
    let mut expected = reconvergence(edges, &low, &high, &order);
    let numbers = Reconverged {
        fits: true,
        unequal: expected.unequal.len(),
    };
    let mut lists = SumLists::new(n, edges.len());
    // past those used, the entries stay
    expected
        .unequal
        .extend(&lists.unequal[expected.unequal.len()..]);
    let graph = TimedGraph {
        sources,
        sinks,
        low,
        high,
    };
    for _ in 0..CALLS {
        let answer = reconvergent_delay_reasons(&graph, &order, &mut lists);
        compare(&[answer], &[numbers])?;
    }
    compare(&lists.settled, &expected.settled)?;
    compare(&lists.smallest, &expected.smallest)?;
    compare(&lists.largest, &expected.largest)?;
    compare(&lists.unequal, &expected.unequal)?;
    Ok(Run {
        calls: CALLS,
        nodes: n,
        edges: edges.len(),
    })
}
