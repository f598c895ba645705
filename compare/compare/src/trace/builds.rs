//! The traces that document 01 sets out, with their answers, and some beside them.
use generator::trace::lists::{Contract, INTENTIONAL_PULSE, STABLE, TraceLists};
use plain::trace::Answer;

pub struct Build {
    /// Tick and level of each event; all are of one component.
    events: &'static [(u64, u8)],
    contract: Option<Contract>,
    /// The findings, as `brief` tells them.
    pub answer: &'static str,
}

const COMPONENT: u64 = 3;

const fn intended(smallest: u64, largest: u64) -> Option<Contract> {
    Some(Contract {
        component: COMPONENT,
        intent: INTENTIONAL_PULSE,
        powered: 0,
        polarity: 0,
        unit: 0,
        smallest,
        largest,
    })
}

const fn stable(powered: u8) -> Option<Contract> {
    Some(Contract {
        component: COMPONENT,
        intent: STABLE,
        powered,
        polarity: 0,
        unit: 0,
        smallest: 0,
        largest: 0,
    })
}

pub const BUILDS: [Build; 8] = [
    Build {
        events: &[(10, 0), (12, 1), (14, 0)],
        contract: None,
        answer: "High 2 HazardCandidate 0",
    },
    Build {
        events: &[(20, 0), (12, 1), (14, 0)],
        contract: None,
        answer: "High 2 HazardCandidate 0",
    },
    Build {
        events: &[(10, 0), (12, 1), (12, 0)],
        contract: None,
        answer: "",
    },
    Build {
        events: &[(10, 0), (12, 1), (14, 0)],
        contract: intended(2, 2),
        answer: "High 2 IntentionalPulse 6",
    },
    Build {
        events: &[(10, 0), (12, 1), (14, 0)],
        contract: intended(3, 2),
        answer: "High 2 HazardConfirmed 7",
    },
    // a pulse of the wanted level does not pass
    Build {
        events: &[(10, 0), (12, 1), (14, 0)],
        contract: stable(1),
        answer: "High 2 HazardConfirmed 4",
    },
    // pulses overlap
    Build {
        events: &[(10, 1), (12, 0), (14, 1), (15, 0)],
        contract: stable(0),
        answer: "Low 2 HazardConfirmed 3, High 1 HazardConfirmed 2",
    },
    Build {
        events: &[],
        contract: stable(0),
        answer: "",
    },
];

impl Build {
    pub fn lists(&self) -> TraceLists {
        let mut lists = TraceLists::default();
        for &(tick, powered) in self.events {
            lists.push_event(tick, COMPONENT, powered);
        }
        lists.with_contracts(self.contract)
    }
}

const VERDICTS: [&str; 5] = [
    "PulseObserved",
    "TransientDeviation",
    "HazardCandidate",
    "HazardConfirmed",
    "IntentionalPulse",
];

/// Polarity, width, verdict and rationale of each finding, for a reader.
pub fn brief(answer: &Answer) -> String {
    let words = answer.findings.iter().map(|finding| {
        let polarity = ["High", "Low"][usize::from(finding.polarity)];
        let verdict = VERDICTS[usize::from(finding.verdict)];
        format!(
            "{polarity} {} {verdict} {}",
            finding.width, finding.rationale
        )
    });
    words.collect::<Vec<_>>().join(", ")
}
