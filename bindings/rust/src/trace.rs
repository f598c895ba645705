//! Events over time, and what is wanted of a signal.
use crate::Refusal;
use crate::findings::{Tallies, TransientFinding, finding};
use crate::raw::{self, PulsePolarity, SignalIntent as Code, TraceTimeUnit};

/// A component that goes on or off.
#[derive(Clone, Copy, Debug, Eq, Hash, PartialEq)]
pub struct BehaviorEvent {
    /// When.
    pub tick: u64,
    /// Its id.
    pub component: u64,
    /// 1 for on, 0 for off, or any other number, which is refused.
    pub powered: u8,
}

impl BehaviorEvent {
    /// An event of this level.
    pub fn new(tick: u64, component: u64, powered: bool) -> Self {
        Self {
            tick,
            component,
            powered: powered.into(),
        }
    }
}

/// What is wanted of a signal.
#[derive(Clone, Copy, Debug, Eq, Hash, PartialEq)]
pub enum SignalIntent {
    /// Only settled behaviour is specified.
    SteadyStateOnly,
    /// It must keep this level.
    Stable {
        /// On or off.
        powered: bool,
    },
    /// A pulse of this polarity and width is its purpose.
    IntentionalPulse {
        /// On or off in between.
        polarity: PulsePolarity,
        /// What the widths count.
        time_unit: TraceTimeUnit,
        /// The smallest width that fits.
        minimum_width_ticks: u64,
        /// The largest width that fits.
        maximum_width_ticks: u64,
    },
    /// Pulses of this polarity up to this width are tolerated.
    MaximumPulseWidth {
        /// On or off in between.
        polarity: PulsePolarity,
        /// What the width counts.
        time_unit: TraceTimeUnit,
        /// The largest width that fits.
        maximum_width_ticks: u64,
    },
}

/// The intent of one component. The codes may be any numbers; those out of range are refused where
/// the intent uses them.
#[derive(Clone, Copy, Debug, Default, Eq, Hash, PartialEq)]
pub struct Contract {
    /// The id of the component.
    pub component: u64,
    /// 0 to 3, in the order of [`SignalIntent`].
    pub intent: u8,
    /// The wanted level of intent 1.
    pub powered: u8,
    /// The code of a [`PulsePolarity`], for intents 2 and 3.
    pub polarity: u8,
    /// The code of a [`TraceTimeUnit`], for intents 2 and 3.
    pub time_unit: u8,
    /// The smallest width, for intent 2.
    pub minimum_width_ticks: u64,
    /// The largest width, for intents 2 and 3.
    pub maximum_width_ticks: u64,
}

impl Contract {
    /// With 0 in the fields that the intent doesn't use.
    pub fn new(component: u64, intent: SignalIntent) -> Self {
        let mut contract = Self {
            component,
            ..Self::default()
        };
        match intent {
            SignalIntent::SteadyStateOnly => contract.intent = Code::SteadyStateOnly.code(),
            SignalIntent::Stable { powered } => {
                contract.intent = Code::Stable.code();
                contract.powered = powered.into();
            }
            SignalIntent::IntentionalPulse {
                polarity,
                time_unit,
                minimum_width_ticks,
                maximum_width_ticks,
            } => {
                contract.intent = Code::IntentionalPulse.code();
                contract.minimum_width_ticks = minimum_width_ticks;
                contract.set_largest(polarity, time_unit, maximum_width_ticks);
            }
            SignalIntent::MaximumPulseWidth {
                polarity,
                time_unit,
                maximum_width_ticks,
            } => {
                contract.intent = Code::MaximumPulseWidth.code();
                contract.set_largest(polarity, time_unit, maximum_width_ticks);
            }
        }
        contract
    }

    fn set_largest(&mut self, polarity: PulsePolarity, unit: TraceTimeUnit, largest: u64) {
        self.polarity = polarity.code();
        self.time_unit = unit.code();
        self.maximum_width_ticks = largest;
    }
}

/// A row of events, and the contracts that its pulses are held against.
#[derive(Clone, Debug, Default, Eq, PartialEq)]
pub struct Trace {
    /// The code of a [`TraceTimeUnit`], or any other number, which is refused.
    pub time_unit: u8,
    /// At most 4,096, in the order in which they were seen.
    pub events: Vec<BehaviorEvent>,
    /// At most 512, each for a component above that of the one before.
    pub contracts: Vec<Contract>,
}

/// What a trace shows.
#[derive(Clone, Debug, Eq, PartialEq)]
pub struct TransientAssessment {
    /// A finding for each pulse, by rising component.
    pub findings: Vec<TransientFinding>,
    /// How many findings have each verdict, by its code.
    pub tallies: Tallies,
    /// How many contracts were given.
    pub contracts_applied: u64,
}

impl Trace {
    /// Judges every pulse, or says why the trace is refused.
    pub fn assess(&self) -> Result<TransientAssessment, Refusal> {
        let mut findings = raw::Findings::with_room(0, self.events.len());
        let answer = raw::assess_transients(&self.lists().lend(), &mut findings.lend());
        Refusal::check(answer.number, answer.place)?;
        Ok(TransientAssessment {
            findings: (0..answer.findings as usize)
                .map(|i| finding(&findings, i))
                .collect(),
            tallies: answer.tallies,
            contracts_applied: answer.contracts_applied,
        })
    }

    /// The trace as number lists, which the calls of [`raw`] are lent.
    pub fn lists(&self) -> raw::Trace {
        let mut lists = raw::Trace {
            unit: self.time_unit,
            ..raw::Trace::default()
        };
        for event in &self.events {
            push_event(&mut lists.events, event);
        }
        for contract in &self.contracts {
            push_contract(&mut lists.contracts, contract);
        }
        lists
    }
}

fn push_event(lists: &mut raw::Events, event: &BehaviorEvent) {
    lists.ticks.push(event.tick);
    lists.components.push(event.component);
    lists.powered.push(event.powered);
}

fn push_contract(lists: &mut raw::Contracts, contract: &Contract) {
    lists.components.push(contract.component);
    lists.intents.push(contract.intent);
    lists.powered.push(contract.powered);
    lists.polarities.push(contract.polarity);
    lists.units.push(contract.time_unit);
    lists.smallest.push(contract.minimum_width_ticks);
    lists.largest.push(contract.maximum_width_ticks);
}
