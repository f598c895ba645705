//! What the Rust's analysis has and no list of document 01 holds: it follows from the lists, so
//! nothing is lost.
use std::collections::BTreeSet;

use dustroute_ir::{BehaviorPattern, TemporalAnalysis};
use dustroute_physical::ComponentId;
use generator::lists::SceneLists;

/// The first part left out that is not what the lists say.
pub fn left_out(
    analysis: &TemporalAnalysis,
    lists: &SceneLists,
    feedback: &[u64],
) -> Option<&'static str> {
    let circuit = &analysis.timed_circuit;
    let two_ends = |edge: &dustroute_ir::TimedEdge| {
        edge.physical_components == BTreeSet::from([edge.source, edge.sink])
    };
    let nodes = circuit.nodes.iter().map(|node| node.component.0);
    let origins = &analysis.behavior.physical_origins;
    let origin = |i: usize| {
        let pos = origins.get(&ComponentId(lists.ids[i]))?;
        Some([pos.x, pos.y, pos.z])
    };
    let position = |i: usize| Some([lists.xs[i], lists.ys[i], lists.zs[i]]);
    let n = lists.ids.len();
    let parts = [
        ("an edge's components", circuit.edges.iter().all(two_ends)),
        ("the nodes", nodes.eq(lists.ids.iter().copied())),
        (
            "the origins",
            origins.len() == n && (0..n).all(|i| origin(i) == position(i)),
        ),
        (
            "the pattern's components",
            pattern_agrees(&analysis.behavior.patterns, feedback),
        ),
        (
            "the traces",
            analysis.behavior.traces.is_empty() && analysis.transients.is_empty(),
        ),
    ];
    parts.iter().find(|part| !part.1).map(|part| part.0)
}

/// A clock or latch candidate has list 4's components.
fn pattern_agrees(patterns: &[BehaviorPattern], feedback: &[u64]) -> bool {
    patterns.iter().all(|pattern| match pattern {
        BehaviorPattern::DelayedPath => true,
        BehaviorPattern::ClockCandidate {
            feedback_components,
        }
        | BehaviorPattern::LatchCandidate {
            feedback_components,
        } => feedback_components
            .iter()
            .map(|id| id.0)
            .eq(feedback.iter().copied()),
    })
}
