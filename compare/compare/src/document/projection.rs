//! "Projection".
use generator::lists::SceneLists;

use super::graph::Graph;
use super::reasons::by_rising_id;
use super::table::{Node, delay, node};
use crate::answer::ProjectedEdge;

/// "A Wire, Conductor or Delay with exactly one incoming and one outgoing edge is compressed"
pub fn compressed(lists: &SceneLists, graph: &Graph, v: usize) -> bool {
    let kind = matches!(
        node(lists.kinds[v]),
        Node::Wire | Node::Conductor | Node::Delay
    );
    kind && graph.sources[v].len() == 1 && graph.sinks[v].len() == 1
}

/// "From each retained component by rising id, along each outgoing edge in list order, the chain is
/// walked through compressed components."
pub fn projected(lists: &SceneLists, graph: &Graph) -> Vec<ProjectedEdge> {
    let mut edges = Vec::new();
    for source in by_rising_id(lists) {
        if compressed(lists, graph, source) {
            continue;
        }
        for &first in &graph.sinks[source] {
            edges.push(along(lists, graph, source, first));
        }
    }
    edges
}

/// "Delays add, inversion flips at DelayedInvert, and the ids met, ends included, are the path."
fn along(lists: &SceneLists, graph: &Graph, source: usize, first: usize) -> ProjectedEdge {
    let mut met = vec![source, first];
    let mut last = first;
    while compressed(lists, graph, last) {
        last = graph.sinks[last][0];
        met.push(last);
        assert!(met.len() <= graph.size() + 1, "a chain goes round");
    }
    let passed = &met[..met.len() - 1];
    let sum = passed.iter().map(|v| delay(lists, *v)).sum();
    let flips = passed
        .iter()
        .filter(|v| node(lists.kinds[**v]) == Node::Inverter);
    ProjectedEdge {
        source: lists.ids[source],
        sink: lists.ids[last],
        inverted: flips.count() % 2 == 1,
        minimum: sum,
        maximum: sum,
        path: met.iter().map(|v| lists.ids[*v]).collect(),
    }
}
