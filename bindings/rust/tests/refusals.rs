//! Refusals 1 to 13 and 15, with their places.
mod common;

use common::{delayed_lamp, high_pulse, of};
use sizhbanto::{
    BehaviorEvent, BlockKind, Connection, Contract, Record, Refusal, RefusalNumber, Scene,
    SignalIntent, Trace, TransferKind,
};

fn scene_refusal(change: impl Fn(&mut Scene)) -> Option<(u32, u64)> {
    let mut scene = delayed_lamp();
    change(&mut scene);
    scene
        .report()
        .err()
        .map(|refusal| (refusal.number, refusal.place))
}

#[test]
fn scenes() {
    let lever = |id| of(id, BlockKind::Lever);
    let support = Connection::new(7, 7, TransferKind::StructuralSupport);
    assert_eq!(scene_refusal(|_| ()), None);
    assert_eq!(
        scene_refusal(|s| s.components.resize(513, lever(1))),
        Some((1, 513))
    );
    assert_eq!(scene_refusal(|s| s.connections.resize(2048, support)), None);
    assert_eq!(
        scene_refusal(|s| s.connections.resize(2049, support)),
        Some((2, 2049))
    );
    assert_eq!(scene_refusal(|s| s.components[2].id = 1), Some((3, 2)));
    assert_eq!(scene_refusal(|s| s.components[1].kind = 13), Some((4, 1)));
    assert_eq!(scene_refusal(|s| s.components[2].delay = 257), Some((4, 2)));
    assert_eq!(scene_refusal(|s| s.components[0].locked = 2), Some((4, 0)));
    assert_eq!(
        scene_refusal(|s| s.connections[1].transfer = 7),
        Some((5, 1))
    );
    assert_eq!(scene_refusal(|s| s.connections[0].sink = 4), Some((6, 0)));
    assert_eq!(
        scene_refusal(|s| s.connections[1].source = u64::MAX),
        Some((6, 1))
    );
}

fn trace_refusal(change: impl Fn(&mut Trace)) -> Option<(u32, u64)> {
    let mut trace = high_pulse(3);
    let stable = SignalIntent::Stable { powered: true };
    trace.contracts = vec![Contract::new(3, stable), Contract::new(4, stable)];
    change(&mut trace);
    let alone = trace.assess().err();
    assert_eq!(Record::new().record_trace(&trace).err(), alone);
    alone.map(|refusal| (refusal.number, refusal.place))
}

#[test]
fn traces() {
    let (event, contract) = (BehaviorEvent::new(0, 0, true), Contract::default());
    assert_eq!(trace_refusal(|_| ()), None);
    assert_eq!(trace_refusal(|t| t.events.resize(4096, event)), None);
    assert_eq!(
        trace_refusal(|t| t.events.resize(4097, event)),
        Some((9, 4097))
    );
    assert_eq!(
        trace_refusal(|t| t.contracts.resize(513, contract)),
        Some((10, 513))
    );
    assert_eq!(trace_refusal(|t| t.time_unit = 2), Some((11, 0)));
    assert_eq!(trace_refusal(|t| t.events[2].powered = 2), Some((11, 2)));
    assert_eq!(trace_refusal(|t| t.contracts[1].intent = 4), Some((11, 1)));
    assert_eq!(trace_refusal(|t| t.contracts[1].powered = 2), Some((11, 1)));
    assert_eq!(trace_refusal(|t| t.contracts[1].polarity = 2), None);
    assert_eq!(
        trace_refusal(|t| t.contracts[1].component = 3),
        Some((12, 1))
    );
}

fn recording_refusal(traces: u64, tallies: [u64; 5]) -> Option<(u32, u64)> {
    let finding = high_pulse(3).assess().expect("an accepted trace").findings;
    let mut record = Record::restored(traces, tallies, &finding);
    let before = record.clone();
    let refusal = record.record_trace(&high_pulse(3)).err()?;
    assert_eq!(record, before);
    Some((refusal.number, refusal.place))
}

#[test]
fn records() {
    assert_eq!(recording_refusal(1, [0, 0, 1, 0, 0]), None);
    assert_eq!(recording_refusal(63, [1, 0, 0, 0, 0]), None);
    assert_eq!(recording_refusal(64, [1, 0, 0, 0, 0]), Some((13, 0)));
    assert_eq!(recording_refusal(0, [1, 0, 0, 0, 0]), Some((15, 0)));
    assert_eq!(recording_refusal(64, [1, 0, 0, 0, 1]), Some((15, 0)));
    assert_eq!(recording_refusal(1, [2, u64::MAX, 0, 0, 0]), Some((15, 0)));
}

#[test]
fn words() {
    let said = |number, place| Refusal { number, place }.to_string();
    assert_eq!(said(1, 513), "refusal 1: 513 components, over 512");
    assert_eq!(
        said(8, 2),
        "refusal 8: the lists of events differ in length"
    );
    assert_eq!(said(99, 3), "refusal 99: place 3");
    assert!((1..=15).all(|number| !said(number, 7).ends_with(": place 7")));
    let refusal = Refusal {
        number: 15,
        place: 0,
    };
    assert_eq!(refusal.name(), Some(RefusalNumber::RecordFalse));
}
