//! "Reasons and scope".
use generator::lists::SceneLists;

use super::graph::Graph;
use super::labels::Extremes;
use super::table::{Node, node};
use crate::calls::AssessEntries;

/// "in component order, each component that is neither Wire nor Conductor and shares its strongly
/// connected component with a different component"
pub fn feedback(lists: &SceneLists, graph: &Graph) -> Vec<u64> {
    (0..graph.size())
        .filter(|v| !matches!(node(lists.kinds[*v]), Node::Wire | Node::Conductor))
        .filter(|v| graph.shares(*v))
        .map(|v| lists.ids[v])
        .collect()
}

/// Lists 3 and 4.
pub fn push_reasons(
    entries: &mut AssessEntries,
    lists: &SceneLists,
    graph: &Graph,
    extremes: &Extremes,
) {
    entries.feedback_ids = feedback(lists, graph);
    if !entries.feedback_ids.is_empty() {
        entries.push_reason(1, 0, 0, [0, 0]);
    }
    for (i, id) in lists.ids.iter().enumerate() {
        match (node(lists.kinds[i]), lists.locked[i]) {
            (Node::Comparator | Node::Actuator, _) => {
                entries.push_reason(2, *id, lists.kinds[i], [0, 0]);
            }
            (Node::Delay, 1) => entries.push_reason(3, *id, 0, [0, 0]),
            _ => {}
        }
    }
    for v in by_rising_id(lists) {
        if let Some(sums) = extremes.unequal(graph, v) {
            entries.push_reason(0, lists.ids[v], 0, sums);
        }
    }
}

pub fn by_rising_id(lists: &SceneLists) -> Vec<usize> {
    let mut positions: Vec<_> = (0..lists.ids.len()).collect();
    positions.sort_by_key(|v| lists.ids[*v]);
    positions
}

/// "Any of the first three gives TemporalRequired; unequal delays alone TimingSensitive; none
/// SteadyStateSafe."
pub fn scope(reason_kinds: &[u8]) -> u8 {
    match reason_kinds {
        [] => 0,
        kinds if kinds.iter().all(|kind| *kind == 0) => 1,
        _ => 2,
    }
}

/// "without Feedback, DelayedPath if any device exists, else nothing; with it, ClockCandidate if
/// the list has an Inverter, else LatchCandidate"
pub fn pattern(lists: &SceneLists, feedback: &[u64]) -> u8 {
    let is = |i: usize, wanted| node(lists.kinds[i]) == wanted;
    let mut all = 0..lists.ids.len();
    if feedback.is_empty() {
        let device = all.any(|i| (9..=12).contains(&lists.kinds[i]));
        return if device { 0 } else { 3 };
    }
    let clock = all.any(|i| is(i, Node::Inverter) && feedback.contains(&lists.ids[i]));
    if clock { 1 } else { 2 }
}
