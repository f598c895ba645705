//! Lists 0 to 2.
use generator::lists::{SUPPORT, SceneLists};
use library::description::DescribeNumbers;

use super::table::{behavior, delay, semantics};
use crate::answer::Described;
use crate::calls::DescribeEntries;

/// "Timed edges and evidence follow connection order; device evidence comes after it, in component
/// order."
pub fn described(lists: &SceneLists) -> Described {
    let mut entries = DescribeEntries::default();
    for i in 0..lists.sources.len() {
        if lists.transfers[i] != SUPPORT {
            push_edge(&mut entries, lists, i);
        }
        push_evidence(&mut entries, 0, [lists.sources[i], lists.sinks[i], 0], 0);
    }
    for i in 0..lists.ids.len() {
        if let Some(meaning) = semantics(lists.kinds[i]) {
            push_device(&mut entries, lists, i, meaning);
            push_evidence(&mut entries, 1, [0, 0, lists.ids[i]], lists.kinds[i]);
        }
    }
    let numbers = DescribeNumbers {
        timed_edges: entries.edge_sources.len() as u64,
        devices: entries.device_components.len() as u64,
        evidence: entries.evidence_kinds.len() as u64,
        ..DescribeNumbers::default()
    };
    Described { numbers, entries }
}

/// "An edge takes its source's delay."
fn push_edge(entries: &mut DescribeEntries, lists: &SceneLists, i: usize) {
    let (source, sink) = (lists.sources[i], lists.sinks[i]);
    let of = lists.ids.iter().position(|id| *id == source);
    let of = of.expect("an accepted edge's source");
    entries.edge_sources.push(source);
    entries.edge_sinks.push(sink);
    entries.edge_minimums.push(delay(lists, of));
    entries.edge_maximums.push(delay(lists, of));
    entries.edge_behaviors.push(behavior(lists.kinds[of]));
}

fn push_device(entries: &mut DescribeEntries, lists: &SceneLists, i: usize, meaning: u8) {
    entries.device_components.push(lists.ids[i]);
    entries.device_xs.push(lists.xs[i]);
    entries.device_ys.push(lists.ys[i]);
    entries.device_zs.push(lists.zs[i]);
    entries.device_semantics.push(meaning);
    entries.device_delays.push(delay(lists, i));
}

fn push_evidence(entries: &mut DescribeEntries, kind: u8, ids: [u64; 3], block: u8) {
    let [source, sink, component] = ids;
    entries.evidence_kinds.push(kind);
    entries.evidence_sources.push(source);
    entries.evidence_sinks.push(sink);
    entries.evidence_components.push(component);
    entries.evidence_blocks.push(block);
}
