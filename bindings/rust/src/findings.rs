//! List 9.
use crate::known;
use crate::raw::{self, PulsePolarity, Rationale, TraceTimeUnit, TransientVerdict};

/// How many findings have each verdict, by the code of the verdict.
pub type Tallies = [u64; 5];

/// A signal that leaves a level and comes back.
#[derive(Clone, Copy, Debug, Eq, Hash, PartialEq)]
pub struct PulseObservation {
    /// The id of the component.
    pub component: u64,
    /// On or off in between.
    pub polarity: PulsePolarity,
    /// What the ticks are.
    pub time_unit: TraceTimeUnit,
    /// When it left the level.
    pub start_tick: u64,
    /// When it came back.
    pub end_tick: u64,
    /// How long it was away.
    pub width_ticks: u64,
    /// The level.
    pub surrounding_steady_value: bool,
    /// Which events of the trace show it: the one before, its start and its end.
    pub evidence_event_indices: [usize; 3],
}

/// A pulse and what is judged of it.
#[derive(Clone, Copy, Debug, Eq, Hash, PartialEq)]
pub struct TransientFinding {
    /// The pulse.
    pub pulse: PulseObservation,
    /// The judgement.
    pub verdict: TransientVerdict,
    /// Why.
    pub rationale: Rationale,
}

/// Entry i of list 9.
pub(crate) fn finding(lists: &raw::Findings, i: usize) -> TransientFinding {
    TransientFinding {
        pulse: PulseObservation {
            component: lists.components[i],
            polarity: known(PulsePolarity::from_code(lists.polarities[i])),
            time_unit: known(TraceTimeUnit::from_code(lists.units[i])),
            start_tick: lists.start_ticks[i],
            end_tick: lists.end_ticks[i],
            width_ticks: lists.widths[i],
            surrounding_steady_value: lists.steady[i] == 1,
            evidence_event_indices: [lists.baselines[i], lists.starts[i], lists.ends[i]],
        },
        verdict: known(TransientVerdict::from_code(lists.verdicts[i])),
        rationale: known(Rationale::from_code(lists.rationales[i])),
    }
}

/// Puts a finding behind those that list 9 has.
pub(crate) fn push(lists: &mut raw::Findings, finding: &TransientFinding) {
    let pulse = &finding.pulse;
    let [baseline, start, end] = pulse.evidence_event_indices;
    lists.components.push(pulse.component);
    lists.polarities.push(pulse.polarity.code());
    lists.units.push(pulse.time_unit.code());
    lists.start_ticks.push(pulse.start_tick);
    lists.end_ticks.push(pulse.end_tick);
    lists.widths.push(pulse.width_ticks);
    lists.steady.push(pulse.surrounding_steady_value.into());
    lists.baselines.push(baseline);
    lists.starts.push(start);
    lists.ends.push(end);
    lists.verdicts.push(finding.verdict.code());
    lists.rationales.push(finding.rationale.code());
}
