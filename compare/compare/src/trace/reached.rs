//! What an accepted trace's answer shows, so that a run can say what it has seen.
use std::collections::BTreeSet;

use generator::trace::lists::{Contract, INTENTIONAL_PULSE, STABLE, TraceLists};
use plain::trace::{Answer, Finding};

const VERDICTS: [&str; 5] = [
    "verdict 0",
    "verdict 1",
    "verdict 2",
    "verdict 3",
    "verdict 4",
];

const RATIONALES: [&str; 10] = [
    "rationale 0",
    "rationale 1",
    "rationale 2",
    "rationale 3",
    "rationale 4",
    "rationale 5",
    "rationale 6",
    "rationale 7",
    "rationale 8",
    "rationale 9",
];

/// Besides each verdict and each rationale.
const MORE: [&str; 17] = [
    "High",
    "Low",
    "unit 0",
    "unit 1",
    "pulses that overlap",
    "events of others within a pulse",
    "a first tick above the second",
    "a third tick equal to the second",
    "a third tick below the second",
    "a width of 2^64 - 1",
    "unused codes out of range",
    "a smallest width above the largest",
    "a contract of no event",
    "no findings of many events",
    "4,096 events",
    "512 contracts",
    "4,094 findings",
];

/// Of recordings.
pub const FULL: &str = "64 traces held and one more refused";
pub const BETWEEN: &str = "a trace refused between others";

/// Each must be seen in a run.
pub fn wanted() -> impl Iterator<Item = &'static str> {
    let of_traces = VERDICTS.into_iter().chain(RATIONALES).chain(MORE);
    of_traces.chain([FULL, BETWEEN])
}

/// The names above that the answer shows.
pub fn shown(lists: &TraceLists, answer: &Answer) -> BTreeSet<&'static str> {
    let findings = &answer.findings;
    let verdicts = findings.iter().map(|f| VERDICTS[usize::from(f.verdict)]);
    let rationales = findings
        .iter()
        .map(|f| RATIONALES[usize::from(f.rationale)]);
    let parts = of_findings(lists, findings)
        .into_iter()
        .chain(of_events(lists, answer))
        .chain(of_contracts(lists));
    let parts = parts.filter(|(_, shows)| *shows).map(|(name, _)| name);
    verdicts.chain(rationales).chain(parts).collect()
}

fn of_findings(lists: &TraceLists, findings: &[Finding]) -> [(&'static str, bool); 8] {
    let any = |shows: fn(&Finding) -> bool| findings.iter().any(shows);
    let pairs = || findings.iter().zip(findings.iter().skip(1));
    [
        ("High", any(|f| f.polarity == 0)),
        ("Low", any(|f| f.polarity == 1)),
        ("unit 0", any(|f| f.unit == 0)),
        ("unit 1", any(|f| f.unit == 1)),
        (
            "pulses that overlap",
            pairs().any(|(f, g)| f.end == g.start),
        ),
        (
            "events of others within a pulse",
            any(|f| f.end - f.baseline > 2),
        ),
        (
            "a first tick above the second",
            findings
                .iter()
                .any(|f| lists.ticks[f.baseline] > f.start_tick),
        ),
        ("a width of 2^64 - 1", any(|f| f.width == u64::MAX)),
    ]
}

fn of_events(lists: &TraceLists, answer: &Answer) -> [(&'static str, bool); 5] {
    let (n, found) = (lists.ticks.len(), answer.findings.len());
    [
        (
            "a third tick equal to the second",
            lost(lists, |third, second| third == second),
        ),
        (
            "a third tick below the second",
            lost(lists, |third, second| third < second),
        ),
        ("no findings of many events", n > 100 && found == 0),
        ("4,096 events", n == 4096),
        ("4,094 findings", found == 4094),
    ]
}

/// Whether three neighbours of one component fail to be a pulse by their ticks alone.
fn lost(lists: &TraceLists, ticks: fn(u64, u64) -> bool) -> bool {
    (2..lists.ticks.len()).any(|i| {
        let (id, level) = (lists.components[i], lists.powered[i]);
        let one = lists.components[i - 2..i].iter().all(|other| *other == id);
        let levels = lists.powered[i - 2] == level && lists.powered[i - 1] != level;
        one && levels && ticks(lists.ticks[i], lists.ticks[i - 1])
    })
}

fn of_contracts(lists: &TraceLists) -> [(&'static str, bool); 4] {
    let any = |shows: fn(Contract) -> bool| lists.contracts().any(shows);
    let named: BTreeSet<_> = lists.components.iter().collect();
    let mut components = lists.contract_components.iter();
    [
        ("unused codes out of range", any(unused_out_of_range)),
        (
            "a smallest width above the largest",
            any(|c| c.intent == INTENTIONAL_PULSE && c.smallest > c.largest),
        ),
        (
            "a contract of no event",
            components.any(|component| !named.contains(component)),
        ),
        ("512 contracts", lists.contract_components.len() == 512),
    ]
}

fn unused_out_of_range(contract: Contract) -> bool {
    let level = contract.powered > 1;
    let codes = contract.polarity > 1 || contract.unit > 1;
    match contract.intent {
        STABLE => codes,
        _ => level,
    }
}
