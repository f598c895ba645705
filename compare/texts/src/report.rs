//! "Report program": what is printed of an accepted scene, by document 01's words.
use compare::answer::{Assessed, ProjectedEdge};
use compare::calls::AssessEntries;

use crate::written::ended;

const SCOPES: [&str; 3] = ["steady_state_safe", "timing_sensitive", "temporal_required"];

pub fn report(ids: &[u64], assessed: &Assessed) -> Vec<u8> {
    let (numbers, entries) = (&assessed.numbers, &assessed.entries);
    let mut lines = vec![
        format!("scope={}", SCOPES[usize::from(numbers.scope)]),
        format!("reasons={}", numbers.reasons),
    ];
    let reasons = 0..entries.reason_kinds.len();
    lines.extend(reasons.map(|k| format!("reason={}", reason(entries, k))));
    lines.push(format!("retained={}", numbers.retained));
    lines.push(format!("compressed={}", numbers.compressed));
    lines.push(format!("projected={}", numbers.projected));
    for edge in entries.projected() {
        lines.extend(edge_lines(&edge));
    }
    lines.push(format!(
        "pattern={}",
        pattern(numbers.pattern, &entries.feedback_ids)
    ));
    for (i, id) in ids.iter().enumerate() {
        lines.push(format!("component={id}"));
        lines.push(format!("label={}", label(entries, i)));
    }
    ended(&lines)
}

fn reason(entries: &AssessEntries, k: usize) -> String {
    let id = entries.reason_components[k];
    let (low, high) = (entries.reason_minimums[k], entries.reason_maximums[k]);
    match entries.reason_kinds[k] {
        0 => format!("unequal:{id}:{low}:{high}"),
        1 => format!("feedback:{}", joined(&entries.feedback_ids)),
        2 => format!("stateful:{id}"),
        _ => format!("locked:{id}"),
    }
}

fn edge_lines(edge: &ProjectedEdge) -> [String; 6] {
    [
        format!("source={}", edge.source),
        format!("sink={}", edge.sink),
        format!("inverted={}", u8::from(edge.inverted)),
        format!("minimum={}", edge.minimum),
        format!("maximum={}", edge.maximum),
        format!("path={}", joined(&edge.path)),
    ]
}

fn pattern(pattern: u8, feedback: &[u64]) -> String {
    match pattern {
        0 => "delayed_path".to_owned(),
        1 => format!("clock:{}", joined(feedback)),
        2 => format!("latch:{}", joined(feedback)),
        _ => "none".to_owned(),
    }
}

fn label(entries: &AssessEntries, i: usize) -> String {
    match entries.label_settled[i] {
        1 => format!("{},{}", entries.label_lows[i], entries.label_highs[i]),
        _ => "unsettled".to_owned(),
    }
}

fn joined(ids: &[u64]) -> String {
    let ids: Vec<_> = ids.iter().map(u64::to_string).collect();
    ids.join(",")
}
