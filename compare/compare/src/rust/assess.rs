//! Lists 3 to 7 of the Rust's analysis; it has no labels.
use dustroute_ir::{
    BehaviorPattern, SteadyStateEdge, SteadyStateProjection, TemporalAnalysis, TimingReason,
};
use dustroute_physical::ComponentId;
use library::assessment::AssessNumbers;

use crate::answer::{Assessed, ProjectedEdge};
use crate::calls::AssessEntries;

/// The components' ids give list 5 its order.
pub fn assessed(analysis: &TemporalAnalysis, ids: &[u64]) -> Assessed {
    let (timing, projection) = (&analysis.timing, &analysis.steady_state);
    let mut entries = AssessEntries::default();
    for reason in &timing.reasons {
        push_reason(&mut entries, reason);
    }
    entries.marks = ids.iter().map(|id| mark(projection, *id)).collect();
    for edge in &projection.edges {
        entries.push_projected(&projected_edge(edge));
    }
    let numbers = AssessNumbers {
        scope: timing.scope as u8,
        pattern: pattern(&analysis.behavior.patterns),
        confidence: analysis.confidence_percent,
        reasons: timing.reasons.len() as u64,
        feedback: entries.feedback_ids.len() as u64,
        retained: projection.retained_components.len() as u64,
        compressed: projection.compressed_components.len() as u64,
        projected: projection.edges.len() as u64,
        path_ids: entries.path_ids.len() as u64,
        ..AssessNumbers::default()
    };
    Assessed { numbers, entries }
}

fn push_reason(entries: &mut AssessEntries, reason: &TimingReason) {
    match reason {
        TimingReason::UnequalReconvergentDelay {
            component,
            minimum_redstone_ticks,
            maximum_redstone_ticks,
        } => {
            let sums = [*minimum_redstone_ticks, *maximum_redstone_ticks];
            entries.push_reason(0, component.0, 0, sums);
        }
        TimingReason::Feedback { components } => {
            entries.push_reason(1, 0, 0, [0, 0]);
            entries.feedback_ids.extend(components.iter().map(|c| c.0));
        }
        TimingReason::StatefulOrMechanicalDevice { component, block } => {
            entries.push_reason(2, component.0, *block as u8, [0, 0]);
        }
        TimingReason::LockedRepeater { component } => {
            entries.push_reason(3, component.0, 0, [0, 0]);
        }
    }
}

/// 1 for retained and 0 for compressed; a component that the Rust has in both sets or in none
/// gets a number that no list holds.
fn mark(projection: &SteadyStateProjection, id: u64) -> u8 {
    let retained = projection.retained_components.contains(&ComponentId(id));
    let compressed = projection.compressed_components.contains(&ComponentId(id));
    match (retained, compressed) {
        (true, false) => 1,
        (false, true) => 0,
        _ => 99,
    }
}

fn projected_edge(edge: &SteadyStateEdge) -> ProjectedEdge {
    ProjectedEdge {
        source: edge.source.0,
        sink: edge.sink.0,
        inverted: edge.inverted,
        minimum: edge.retained_delay.minimum_redstone_ticks,
        maximum: edge.retained_delay.maximum_redstone_ticks,
        path: edge.physical_path.iter().map(|id| id.0).collect(),
    }
}

/// 3 for no pattern; several give a number that no call has.
fn pattern(patterns: &[BehaviorPattern]) -> u8 {
    match patterns {
        [] => 3,
        [BehaviorPattern::DelayedPath] => 0,
        [BehaviorPattern::ClockCandidate { .. }] => 1,
        [BehaviorPattern::LatchCandidate { .. }] => 2,
        _ => 99,
    }
}
