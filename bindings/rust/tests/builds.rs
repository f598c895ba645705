//! The builds of document 01.
mod common;

use common::{delayed_lamp, of, repeater, scene};
use sizhbanto::{
    BehaviorPattern, BlockKind, Connection, DelayRange, EdgeBehavior, Label, Mark, Pos, Report,
    Scene, SteadyStateEdge, TemporalDevice, TemporalEvidence, TemporalScope, TemporalSemantics,
    TimedEdge, TimingReason, TransferKind,
};

fn ticks(minimum: u32, maximum: u32) -> DelayRange {
    DelayRange {
        minimum_redstone_ticks: minimum,
        maximum_redstone_ticks: maximum,
    }
}

fn settled(low: u32, high: u32) -> Label {
    Label::Settled { low, high }
}

fn report(scene: &Scene) -> Report {
    scene.report().expect("an accepted scene")
}

#[test]
fn empty() {
    let report = report(&Scene::default());
    assert_eq!(report.scope, TemporalScope::SteadyStateSafe);
    assert_eq!(report.pattern, BehaviorPattern::Nothing);
    assert_eq!(report.confidence_percent, 100);
    assert!(report.timed_edges.is_empty() && report.devices.is_empty());
    assert!(report.evidence.is_empty() && report.reasons.is_empty() && report.feedback.is_empty());
    assert!(report.marks.is_empty() && report.projected.is_empty() && report.labels.is_empty());
}

/// Everything that the report of lever, repeater and lamp has but the timed edges.
fn delayed_lamp_report(pos: Pos, timed_edges: Vec<TimedEdge>) -> Report {
    Report {
        timed_edges,
        devices: vec![TemporalDevice {
            component: 2,
            physical_position: pos,
            semantics: TemporalSemantics::DelayedForward,
            minimum_delay_redstone_ticks: 4,
        }],
        evidence: vec![
            TemporalEvidence::VerifiedPhysicalConnection { source: 1, sink: 2 },
            TemporalEvidence::VerifiedPhysicalConnection { source: 2, sink: 3 },
            TemporalEvidence::DeviceSemantics {
                component: 2,
                block: BlockKind::Repeater,
            },
        ],
        reasons: vec![],
        feedback: vec![],
        marks: vec![Mark::Retained, Mark::Compressed, Mark::Retained],
        projected: vec![SteadyStateEdge {
            source: 1,
            sink: 3,
            inverted: false,
            retained_delay: ticks(4, 4),
            physical_path: vec![1, 2, 3],
        }],
        labels: vec![settled(0, 0), settled(0, 0), settled(4, 4)],
        scope: TemporalScope::SteadyStateSafe,
        pattern: BehaviorPattern::DelayedPath,
        confidence_percent: 100,
    }
}

#[test]
fn lever_repeater_lamp() {
    let mut scene = delayed_lamp();
    scene.components[1] = scene.components[1].at(-1, 64, i32::MIN);
    let edge = |source, sink, delay, behavior| TimedEdge {
        source,
        sink,
        delay: ticks(delay, delay),
        behavior,
    };
    let timed_edges = vec![
        edge(1, 2, 0, EdgeBehavior::Immediate),
        edge(2, 3, 4, EdgeBehavior::DelayedForward),
    ];
    let [x, y, z] = [-1, 64, i32::MIN];
    let wanted = delayed_lamp_report(Pos { x, y, z }, timed_edges);
    assert_eq!(report(&scene), wanted);
}

#[test]
fn unequal_delays() {
    let lamp = of(4, BlockKind::RedstoneLamp);
    let components = [of(1, BlockKind::Lever), repeater(2, 1), lamp];
    let report = report(&scene(&components, &[(1, 2), (2, 4), (1, 4)]));
    let reason = TimingReason::UnequalReconvergentDelay {
        component: 4,
        minimum_redstone_ticks: 0,
        maximum_redstone_ticks: 1,
    };
    assert_eq!(report.reasons, [reason]);
    assert_eq!(report.scope, TemporalScope::TimingSensitive);
    assert_eq!(report.labels[2], settled(0, 1));
    let paths: Vec<_> = report
        .projected
        .iter()
        .map(|edge| &edge.physical_path)
        .collect();
    assert_eq!(paths, [&[1, 2, 4][..], &[1, 4]]);
}

#[test]
fn repeater_loop() {
    let repeaters = [of(1, BlockKind::Repeater), of(2, BlockKind::Repeater)];
    let report = report(&scene(&repeaters, &[(1, 2), (2, 1)]));
    assert_eq!(report.reasons, [TimingReason::Feedback]);
    assert_eq!(report.feedback, [1, 2]);
    assert_eq!(report.pattern, BehaviorPattern::LatchCandidate);
    assert_eq!(report.scope, TemporalScope::TemporalRequired);
    assert_eq!(report.marks, [Mark::Compressed; 2]);
    assert!(report.projected.is_empty());
    assert_eq!(report.labels, [Label::Unsettled; 2]);
}

#[test]
fn torch_clock() {
    let torch = of(1, BlockKind::RedstoneTorch);
    let report = report(&scene(
        &[torch, of(2, BlockKind::RedstoneWire)],
        &[(1, 2), (2, 1)],
    ));
    assert_eq!(report.feedback, [1]);
    assert_eq!(report.pattern, BehaviorPattern::ClockCandidate);
    let edge = SteadyStateEdge {
        source: 1,
        sink: 1,
        inverted: true,
        retained_delay: ticks(1, 1),
        physical_path: vec![1, 2, 1],
    };
    assert_eq!(report.projected, [edge]);
}

#[test]
fn wire_ring() {
    let wires = [1, 2, 3].map(|id| of(id, BlockKind::RedstoneWire));
    let report = report(&scene(&wires, &[(1, 2), (2, 3), (3, 1)]));
    assert!(report.reasons.is_empty() && report.feedback.is_empty());
    assert_eq!(report.labels, [Label::Unsettled; 3]);
}

/// The example of the report program.
#[test]
fn lone_torch() {
    let report = report(&scene(&[of(1, BlockKind::RedstoneTorch)], &[(1, 1)]));
    assert_eq!(report.scope, TemporalScope::SteadyStateSafe);
    assert_eq!(report.pattern, BehaviorPattern::DelayedPath);
    assert_eq!(report.projected[0].physical_path, [1, 1]);
    assert!(report.projected[0].inverted && report.reasons.is_empty());
    assert_eq!(report.labels, [Label::Unsettled]);
}

/// The other reasons, and a support of absent ids.
#[test]
fn stateful_devices() {
    let components = [
        of(7, BlockKind::Comparator),
        of(5, BlockKind::Piston),
        of(9, BlockKind::Repeater).locked(),
    ];
    let mut scene = scene(&components, &[(7, 5)]);
    let support = Connection::new(99, 98, TransferKind::StructuralSupport);
    scene.connections.push(support);
    let report = report(&scene);
    let device = |component, block| TimingReason::StatefulOrMechanicalDevice { component, block };
    let wanted = [
        device(7, BlockKind::Comparator),
        device(5, BlockKind::Piston),
        TimingReason::LockedRepeater { component: 9 },
    ];
    assert_eq!(report.reasons, wanted);
    assert_eq!(report.timed_edges.len(), 1);
    assert_eq!(report.timed_edges[0].behavior, EdgeBehavior::Analog);
    let connection = TemporalEvidence::VerifiedPhysicalConnection {
        source: 99,
        sink: 98,
    };
    assert_eq!(report.evidence[1], connection);
}

#[test]
fn most_components() {
    let levers: Vec<_> = (0..512).map(|id| of(id, BlockKind::Lever)).collect();
    assert_eq!(report(&scene(&levers, &[])).labels, [settled(0, 0); 512]);
}
