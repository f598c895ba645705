//! Lists 3 to 8.
use generator::lists::SceneLists;
use library::assessment::AssessNumbers;

use super::graph::Graph;
use super::labels::extremes;
use super::projection::{compressed, projected};
use super::reasons::{pattern, push_reasons, scope};
use crate::answer::Assessed;
use crate::calls::AssessEntries;

pub fn assessed(lists: &SceneLists) -> Assessed {
    let graph = Graph::new(lists);
    let extremes = extremes(lists, &graph);
    let mut entries = AssessEntries::default();
    push_reasons(&mut entries, lists, &graph, &extremes);
    for v in 0..graph.size() {
        let mark = u8::from(!compressed(lists, &graph, v));
        entries.marks.push(mark);
        entries.push_label(extremes.label(v));
    }
    for edge in projected(lists, &graph) {
        entries.push_projected(&edge);
    }
    let numbers = numbers(lists, &entries);
    Assessed { numbers, entries }
}

/// "Confidence is 100."
fn numbers(lists: &SceneLists, entries: &AssessEntries) -> AssessNumbers {
    let retained = entries.marks.iter().filter(|mark| **mark == 1).count();
    AssessNumbers {
        scope: scope(&entries.reason_kinds),
        pattern: pattern(lists, &entries.feedback_ids),
        confidence: 100,
        reasons: entries.reason_kinds.len() as u64,
        feedback: entries.feedback_ids.len() as u64,
        retained: retained as u64,
        compressed: (entries.marks.len() - retained) as u64,
        projected: entries.projected_sources.len() as u64,
        path_ids: entries.path_ids.len() as u64,
        ..AssessNumbers::default()
    }
}
