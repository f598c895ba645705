//! The traces of document 01, every intent, and recording.
mod common;

use common::{high_pulse, trace};
use sizhbanto::{
    BehaviorEvent, Contract, PulseObservation, PulsePolarity, Rationale, Record, Recorded,
    SignalIntent, Trace, TraceTimeUnit, TransientFinding, TransientVerdict,
};

fn under(trace: Trace, intent: SignalIntent) -> TransientFinding {
    let component = trace.events[0].component;
    let trace = Trace {
        contracts: vec![Contract::new(component, intent)],
        ..trace
    };
    let assessment = trace.assess().expect("an accepted trace");
    assert_eq!(assessment.contracts_applied, 1);
    assert_eq!(assessment.findings.len(), 1);
    let verdict = assessment.findings[0].verdict;
    assert_eq!(assessment.tallies[verdict.code() as usize], 1);
    assert_eq!(assessment.tallies.iter().sum::<u64>(), 1);
    assessment.findings[0]
}

fn judged(trace: Trace, intent: SignalIntent) -> (TransientVerdict, Rationale) {
    let finding = under(trace, intent);
    (finding.verdict, finding.rationale)
}

#[test]
fn one_pulse() {
    let mut trace = high_pulse(3);
    trace.time_unit = TraceTimeUnit::GameTick.code();
    trace.events.insert(0, BehaviorEvent::new(11, 9, true));
    let assessment = trace.assess().expect("an accepted trace");
    let wanted = TransientFinding {
        pulse: PulseObservation {
            component: 3,
            polarity: PulsePolarity::High,
            time_unit: TraceTimeUnit::GameTick,
            start_tick: 12,
            end_tick: 14,
            width_ticks: 2,
            surrounding_steady_value: false,
            evidence_event_indices: [1, 2, 3],
        },
        verdict: TransientVerdict::HazardCandidate,
        rationale: Rationale::NoIntent,
    };
    assert_eq!(assessment.findings, [wanted]);
    assert_eq!(assessment.tallies, [0, 0, 1, 0, 0]);
    assert_eq!(assessment.contracts_applied, 0);
}

#[test]
fn ticks() {
    let late = trace(3, &[(20, false), (12, true), (14, false)]);
    assert_eq!(
        late.assess().expect("accepted").findings[0]
            .pulse
            .width_ticks,
        2
    );
    let none = trace(3, &[(10, false), (12, true), (12, false)]);
    assert!(none.assess().expect("accepted").findings.is_empty());
}

#[test]
fn stable_signals() {
    use Rationale::*;
    let low = || trace(3, &[(10, true), (12, false), (14, true)]);
    let stable = |powered| SignalIntent::Stable { powered };
    let confirmed = |rationale| (TransientVerdict::HazardConfirmed, rationale);
    assert_eq!(
        judged(high_pulse(3), stable(false)),
        confirmed(UnpoweredButHigh)
    );
    assert_eq!(judged(low(), stable(false)), confirmed(UnpoweredButLow));
    assert_eq!(
        judged(high_pulse(3), stable(true)),
        confirmed(PoweredButHigh)
    );
    assert_eq!(judged(low(), stable(true)), confirmed(PoweredButLow));
}

#[test]
fn widths() {
    use TransientVerdict::{HazardConfirmed, IntentionalPulse, PulseObserved};
    let pulse = |polarity, time_unit, minimum_width_ticks, maximum_width_ticks| {
        let intent = SignalIntent::IntentionalPulse {
            polarity,
            time_unit,
            minimum_width_ticks,
            maximum_width_ticks,
        };
        judged(high_pulse(3), intent)
    };
    use PulsePolarity::{High, Low};
    use TraceTimeUnit::{GameTick, RedstoneTick};
    let differs = (HazardConfirmed, Rationale::PulseDiffers);
    assert_eq!(
        pulse(High, RedstoneTick, 2, 2),
        (IntentionalPulse, Rationale::PulseFits)
    );
    assert_eq!(pulse(High, RedstoneTick, 3, 2), differs);
    assert_eq!(pulse(Low, RedstoneTick, 2, 2), differs);
    assert_eq!(pulse(High, GameTick, 2, 2), differs);
    let tolerated = |maximum_width_ticks| {
        let intent = SignalIntent::MaximumPulseWidth {
            polarity: High,
            time_unit: RedstoneTick,
            maximum_width_ticks,
        };
        judged(high_pulse(3), intent)
    };
    assert_eq!(tolerated(2), (PulseObserved, Rationale::WithinTolerance));
    assert_eq!(tolerated(1), (HazardConfirmed, Rationale::PastTolerance));
    let settled_only = judged(high_pulse(3), SignalIntent::SteadyStateOnly);
    assert_eq!(
        settled_only,
        (
            TransientVerdict::TransientDeviation,
            Rationale::SteadyStateOnly
        )
    );
}

#[test]
fn recording() {
    let mut record = Record::new();
    let traces = [high_pulse(8), trace(1, &[(0, true)]), high_pulse(2)];
    let mut findings = Vec::new();
    for (count, each) in (1..).zip(&traces) {
        let alone = each.assess().expect("an accepted trace");
        let recorded = record.record_trace(each).expect("an accepted trace");
        let wanted = Recorded {
            findings: alone.findings.len(),
            contracts_applied: alone.contracts_applied,
        };
        assert_eq!(recorded, wanted);
        findings.extend(alone.findings);
        assert_eq!(record.traces(), count);
        assert!(record.findings().eq(findings.iter().copied()));
    }
    assert_eq!(findings.len(), 2);
    assert_eq!(record.tallies(), [0, 0, 2, 0, 0]);
    let restored = Record::restored(3, [0, 0, 2, 0, 0], &findings);
    assert_eq!(restored, record);
}

/// A refused trace leaves the record as it was, and the next one is recorded.
#[test]
fn refused_recording() {
    let mut record = Record::new();
    record
        .record_trace(&high_pulse(8))
        .expect("an accepted trace");
    let before = record.clone();
    let mut broken = high_pulse(8);
    broken.events[1].powered = 2;
    assert_eq!(
        record
            .record_trace(&broken)
            .map_err(|refusal| refusal.place),
        Err(1)
    );
    assert_eq!(record, before);
    record
        .record_trace(&high_pulse(8))
        .expect("an accepted trace");
    assert_eq!(record.findings().len(), 2);
}
