//! Short ways to write scenes and traces.
#![allow(dead_code)] // not every test uses all
use sizhbanto::{BehaviorEvent, BlockKind, Component, Connection, Scene, Trace, TransferKind};

/// A scene whose connections are direct signals.
pub fn scene(components: &[Component], edges: &[(u64, u64)]) -> Scene {
    let edge =
        |&(source, sink): &(u64, u64)| Connection::new(source, sink, TransferKind::DirectSignal);
    Scene {
        components: components.to_vec(),
        connections: edges.iter().map(edge).collect(),
    }
}

pub fn of(id: u64, kind: BlockKind) -> Component {
    Component::new(id, kind)
}

pub fn repeater(id: u64, delay: u8) -> Component {
    of(id, BlockKind::Repeater).with_delay(delay)
}

/// Lever 1 → repeater 2 (4) → lamp 3.
pub fn delayed_lamp() -> Scene {
    let ends = [of(1, BlockKind::Lever), of(3, BlockKind::RedstoneLamp)];
    scene(&[ends[0], repeater(2, 4), ends[1]], &[(1, 2), (2, 3)])
}

/// A trace of one component, by ticks and levels.
pub fn trace(component: u64, events: &[(u64, bool)]) -> Trace {
    let event = |&(tick, powered): &(u64, bool)| BehaviorEvent::new(tick, component, powered);
    Trace {
        events: events.iter().map(event).collect(),
        ..Trace::default()
    }
}

/// Off at 10, on at 12, off at 14.
pub fn high_pulse(component: u64) -> Trace {
    trace(component, &[(10, false), (12, true), (14, false)])
}
