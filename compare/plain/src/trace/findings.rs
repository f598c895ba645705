//! "Pulses": the findings of an accepted trace.
use generator::trace::lists::{Contract, TraceLists};

/// An entry of list 9.
#[derive(Clone, Copy, Debug, Eq, PartialEq)]
pub struct Finding {
    pub component: u64,
    pub polarity: u8,
    pub unit: u8,
    pub start_tick: u64,
    pub end_tick: u64,
    pub width: u64,
    pub steady: u8,
    pub baseline: usize,
    pub start: usize,
    pub end: usize,
    pub verdict: u8,
    pub rationale: u8,
}

/// The entries of list 9 that a trace gives, and the numbers that go with them.
#[derive(Clone, Debug, Eq, PartialEq)]
pub struct Answer {
    pub findings: Vec<Finding>,
    pub tallies: [u64; 5],
    pub contracts_applied: u64,
}

pub fn answer(lists: &TraceLists) -> Answer {
    let findings = findings(lists);
    let tally = |verdict| findings.iter().filter(|f| f.verdict == verdict).count() as u64;
    Answer {
        tallies: [0, 1, 2, 3, 4].map(tally),
        contracts_applied: lists.contract_components.len() as u64,
        findings,
    }
}

/// "By rising component, each three successive events of it make a pulse if first and third agree,
/// the second differs, and third tick > second tick."
fn findings(lists: &TraceLists) -> Vec<Finding> {
    let mut order: Vec<usize> = (0..lists.ticks.len()).collect();
    // equal components keep the order of their events
    order.sort_by_key(|i| lists.components[*i]);
    let found = order.windows(3).filter_map(|three| {
        let [first, second, third] = [three[0], three[1], three[2]];
        let one = lists.components[first] == lists.components[third];
        let agree = lists.powered[first] == lists.powered[third];
        let differs = lists.powered[second] != lists.powered[first];
        let later = lists.ticks[third] > lists.ticks[second];
        (one && agree && differs && later).then(|| finding(lists, [first, second, third]))
    });
    found.collect()
}

/// "Width is that difference; polarity High (0) if the second is powered, else Low (1)."
fn finding(lists: &TraceLists, [first, second, third]: [usize; 3]) -> Finding {
    let component = lists.components[second];
    let (start_tick, end_tick) = (lists.ticks[second], lists.ticks[third]);
    let mut finding = Finding {
        component,
        polarity: u8::from(lists.powered[second] == 0),
        unit: lists.unit,
        start_tick,
        end_tick,
        width: end_tick - start_tick,
        steady: lists.powered[first],
        baseline: first,
        start: second,
        end: third,
        verdict: 0,
        rationale: 0,
    };
    let known = &lists.contract_components;
    let contract = known.iter().position(|id| *id == component);
    (finding.verdict, finding.rationale) = verdict(&finding, contract.map(|i| lists.contract(i)));
    finding
}

/// The verdict's number in the Rust's order (PulseObserved, TransientDeviation, HazardCandidate,
/// HazardConfirmed, IntentionalPulse) and the rationale's code, "in `classify`'s order, Stable's
/// four by wanted level (0 first), then polarity".
fn verdict(finding: &Finding, contract: Option<Contract>) -> (u8, u8) {
    let Some(contract) = contract else {
        return (2, 0);
    };
    let width = finding.width;
    let fits = contract.polarity == finding.polarity && contract.unit == finding.unit;
    let within = contract.smallest <= width && width <= contract.largest;
    match contract.intent {
        0 => (1, 1),
        1 => (3, 2 + 2 * contract.powered + finding.polarity),
        2 if fits && within => (4, 6),
        2 => (3, 7),
        _ if fits && width <= contract.largest => (0, 8),
        _ => (3, 9),
    }
}
