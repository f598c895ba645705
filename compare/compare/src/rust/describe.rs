//! Lists 0 to 2 of the Rust's analysis.
use dustroute_ir::{TemporalAnalysis, TemporalDevice, TemporalEvidence, TimedEdge};
use library::description::DescribeNumbers;

use crate::answer::Described;
use crate::calls::DescribeEntries;

pub fn described(analysis: &TemporalAnalysis) -> Described {
    let mut entries = DescribeEntries::default();
    for edge in &analysis.timed_circuit.edges {
        push_edge(&mut entries, edge);
    }
    for device in &analysis.behavior.devices {
        push_device(&mut entries, device);
    }
    for evidence in &analysis.evidence {
        push_evidence(&mut entries, evidence);
    }
    let numbers = DescribeNumbers {
        timed_edges: analysis.timed_circuit.edges.len() as u64,
        devices: analysis.behavior.devices.len() as u64,
        evidence: analysis.evidence.len() as u64,
        ..DescribeNumbers::default()
    };
    Described { numbers, entries }
}

fn push_edge(entries: &mut DescribeEntries, edge: &TimedEdge) {
    entries.edge_sources.push(edge.source.0);
    entries.edge_sinks.push(edge.sink.0);
    let delay = &edge.delay;
    entries.edge_minimums.push(delay.minimum_redstone_ticks);
    entries.edge_maximums.push(delay.maximum_redstone_ticks);
    entries.edge_behaviors.push(edge.behavior as u8);
}

fn push_device(entries: &mut DescribeEntries, device: &TemporalDevice) {
    entries.device_components.push(device.component.0);
    entries.device_xs.push(device.physical_position.x);
    entries.device_ys.push(device.physical_position.y);
    entries.device_zs.push(device.physical_position.z);
    entries.device_semantics.push(device.semantics as u8);
    let delay = device.minimum_delay_redstone_ticks;
    entries.device_delays.push(u32::from(delay));
}

/// A field that the entry's case lacks holds 0.
fn push_evidence(entries: &mut DescribeEntries, evidence: &TemporalEvidence) {
    let (kind, source, sink, component, block) = match *evidence {
        TemporalEvidence::VerifiedPhysicalConnection { source, sink } => {
            (0, source.0, sink.0, 0, 0)
        }
        TemporalEvidence::DeviceSemantics { component, block } => {
            (1, 0, 0, component.0, block as u8)
        }
        TemporalEvidence::TruthTableInference => (2, 0, 0, 0, 0),
    };
    entries.evidence_kinds.push(kind);
    entries.evidence_sources.push(source);
    entries.evidence_sinks.push(sink);
    entries.evidence_components.push(component);
    entries.evidence_blocks.push(block);
}
