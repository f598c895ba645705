//! The nodes that share their strongly connected component with another one.
use generator::sketch::Pair;
use library::marking::{Scratch, mark_shared_components};
use plain::shared::shared_marks;

use crate::run::{CALLS, Outcome, Run, compare};

pub fn run(n: usize, edges: &[Pair]) -> Outcome {
    let sources: Vec<_> = edges.iter().map(|edge| edge.0).collect();
    let sinks: Vec<_> = edges.iter().map(|edge| edge.1).collect();
    let mut marks = vec![7; n];
    let mut scratch = Scratch::new(n, edges.len());
    for _ in 0..CALLS {
        if !mark_shared_components(&sources, &sinks, &mut marks, &mut scratch) {
            return Err("refused".to_string());
        }
    }
    compare(&marks, &shared_marks(n, edges))?;
    Ok(Run {
        calls: CALLS,
        nodes: n,
        edges: edges.len(),
    })
}
