//! The unchanged Rust's answer for an accepted trace, in document 01's numbers.
use std::collections::BTreeMap;

use dustroute_ir::{
    BehaviorEvent, BehaviorTrace, PulsePolarity, SignalIntent, TemporalAnalysis, TraceTimeUnit,
    TransientAssessment, TransientFinding, assess_transients,
};
use dustroute_physical::{ComponentId, PhysicalScene};
use generator::trace::lists::{Contract, TraceLists};
use plain::trace::{Answer, Finding};

pub type Contracts = BTreeMap<ComponentId, SignalIntent>;

/// The Rust's rationales in the order of their codes.
const RATIONALES: [&str; 10] = [
    "a transient deviation was observed, but no design intent is registered",
    "the pulse differs from its surrounding steady value; the contract specifies settled behavior only",
    "the signal must remain false, but a High pulse was observed",
    "the signal must remain false, but a Low pulse was observed",
    "the signal must remain true, but a High pulse was observed",
    "the signal must remain true, but a Low pulse was observed",
    "the observed polarity and width match the registered pulse intent",
    "the observed pulse does not match the registered polarity or width",
    "the observed pulse is within the registered tolerance",
    "the observed pulse exceeds the registered polarity or width tolerance",
];

/// The names of the Rust's counts in the order of the verdicts.
const COUNTS: [&str; 5] = [
    "pulse_observed",
    "transient_deviation",
    "hazard_candidate",
    "hazard_confirmed",
    "intentional_pulse",
];

pub fn assessed(lists: &TraceLists) -> Answer {
    answer(&assess_transients(&trace(lists), &contracts(lists)))
}

/// An analysis that holds no trace.
pub fn no_traces() -> TemporalAnalysis {
    TemporalAnalysis::from_scene(&PhysicalScene {
        components: Vec::new(),
        connections: Vec::new(),
    })
}

/// Records the trace, and answers what the analysis then holds of it.
pub fn recorded(analysis: &mut TemporalAnalysis, lists: &TraceLists) -> Answer {
    analysis.record_trace(trace(lists), &contracts(lists));
    answer(analysis.transients.last().expect("a recorded trace"))
}

pub fn trace(lists: &TraceLists) -> BehaviorTrace {
    let event = |i: usize| BehaviorEvent {
        tick: lists.ticks[i],
        component: ComponentId(lists.components[i]),
        powered: lists.powered[i] == 1,
    };
    BehaviorTrace {
        time_unit: unit(lists.unit),
        events: (0..lists.ticks.len()).map(event).collect(),
        ..BehaviorTrace::default()
    }
}

pub fn contracts(lists: &TraceLists) -> Contracts {
    let contracts = lists.contracts();
    let pairs = contracts.map(|contract| (ComponentId(contract.component), intent(contract)));
    pairs.collect()
}

fn intent(contract: Contract) -> SignalIntent {
    match contract.intent {
        0 => SignalIntent::SteadyStateOnly,
        1 => SignalIntent::Stable {
            powered: contract.powered == 1,
        },
        2 => SignalIntent::IntentionalPulse {
            polarity: polarity(contract.polarity),
            time_unit: unit(contract.unit),
            minimum_width_ticks: contract.smallest,
            maximum_width_ticks: contract.largest,
        },
        _ => SignalIntent::MaximumPulseWidth {
            polarity: polarity(contract.polarity),
            time_unit: unit(contract.unit),
            maximum_width_ticks: contract.largest,
        },
    }
}

fn polarity(code: u8) -> PulsePolarity {
    [PulsePolarity::High, PulsePolarity::Low][usize::from(code)]
}

fn unit(code: u8) -> TraceTimeUnit {
    [TraceTimeUnit::RedstoneTick, TraceTimeUnit::GameTick][usize::from(code)]
}

pub fn answer(assessment: &TransientAssessment) -> Answer {
    let counts = &assessment.counts;
    let known = |name: &String| COUNTS.contains(&name.as_str());
    assert!(counts.keys().all(known), "a count of another name");
    let tally = |name| counts.get(name).map_or(0, |count| *count as u64);
    Answer {
        findings: assessment.findings.iter().map(finding).collect(),
        tallies: COUNTS.map(tally),
        contracts_applied: assessment.contracts_applied as u64,
    }
}

/// A rationale of another text gets a code that no list holds.
fn finding(finding: &TransientFinding) -> Finding {
    let pulse = &finding.pulse;
    let [baseline, start, end] = pulse.evidence_event_indices;
    let code = RATIONALES
        .iter()
        .position(|text| *text == finding.rationale);
    Finding {
        component: pulse.component.0,
        polarity: pulse.polarity as u8,
        unit: pulse.time_unit as u8,
        start_tick: pulse.start_tick,
        end_tick: pulse.end_tick,
        width: pulse.width_ticks,
        steady: u8::from(pulse.surrounding_steady_value),
        baseline,
        start,
        end,
        verdict: finding.verdict as u8,
        rationale: code.unwrap_or(99) as u8,
    }
}
